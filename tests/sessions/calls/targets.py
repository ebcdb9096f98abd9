"""Prints a session in which all targets of a call are tried, up to the 2,048 that an answer has at most (RFC 3263,
4.3)."""

COUNT = 32
TARGETS = [
    (address, 5060 + server)
    for server in range(COUNT)
    for address in [
        *(f"192.0.2.{number}" for number in range(COUNT)),
        *(f"2001:db8:0:0:0:0:0:{number:x}" for number in range(COUNT)),
    ]
]


def send(number: int) -> str:
    address, port = TARGETS[number]
    return f"send {number + 1} tcp {address} {port} z9hG4bKffffffffffffffff.{number + 1}"


print("# 32 servers at 32 addresses of each family: each attempt gets a 503.")
print("$ siploc run 'families = \"v4v6\"'")
print(f"> zone example.com. {3 * COUNT}")
for server in range(COUNT):
    print(f"> _sip._tcp SRV 0 0 {5060 + server} a")
for number in range(COUNT):
    print(f"> a A 192.0.2.{number}")
for number in range(COUNT):
    print(f"> a AAAA 2001:db8::{number:x}")
print(f"ok zone {3 * COUNT} 0 0 3")
print(f"> call other 18446744073709551615 sip:example.com;transport=tcp\n{send(0)}\nok call")
for number in range(1, len(TARGETS)):
    print(f"> got {number} 503\n{send(number)}\nok got")
print(f"> got {len(TARGETS)} 503\ndeliver 500\nexhausted\nok got")
