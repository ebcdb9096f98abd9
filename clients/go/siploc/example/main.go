// Asks for the targets of a URI: example ADDRESS, such as 127.0.0.1:5099.
package main

import (
	"context"
	"fmt"
	"log"
	"os"
	"time"

	"siploc.example/clients/go/siploc"
)

func main() {
	ctx, cancel := context.WithTimeout(context.Background(), 5*time.Second)
	defer cancel()
	session, err := siploc.Connect(ctx, os.Args[1], time.Second)
	if err != nil {
		log.Fatal(err)
	}
	defer session.Close()
	answer, err := session.Find(ctx, "sip:bob@192.0.2.1", siploc.Draws{})
	if err != nil {
		log.Fatal(err)
	}
	fmt.Println(answer.Targets, answer.Reason)
}
