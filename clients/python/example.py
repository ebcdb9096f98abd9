#!/usr/bin/env python3
"""Asks for targets, and holds each as if it had failed: example.py ADDRESS, such as 127.0.0.1:5099."""
import sys

import siploc

with siploc.connect(sys.argv[1]) as session:
    session.load("example.com.", "server1 A 192.0.2.1\nserver1 A 192.0.2.2")
    for target in session.find("sip:server1.example.com:5070"):
        print("try", *target)
        session.hold(target, 5000)
    print("then", session.find("sip:server1.example.com:5070").reason)
