// The part of bench/rows/clients in Go: clients ADDRESS SINGLE BATCHED prints the seconds of so many finds one at a
// time, the client's processor microseconds for each, and the same of finds in batches of 1,000.
package main

import (
	"context"
	"errors"
	"fmt"
	"log"
	"os"
	"strconv"
	"syscall"
	"time"

	"siploc.example/clients/go/siploc"
)

const (
	questions = 5_000
	batch     = 1_000
)

func connect(address string) *siploc.Session {
	for tries := 0; ; tries++ {
		session, err := siploc.Connect(context.Background(), address, 30*time.Second)
		if err == nil {
			return session
		}
		if !errors.Is(err, siploc.ErrNotConnected) || tries == 400 {
			log.Fatal(err)
		}
		time.Sleep(25 * time.Millisecond)
	}
}

// used returns the processor time of this process.
func used() time.Duration {
	var usage syscall.Rusage
	if err := syscall.Getrusage(syscall.RUSAGE_SELF, &usage); err != nil {
		log.Fatal(err)
	}
	return time.Duration(usage.Utime.Nano() + usage.Stime.Nano())
}

// timed prints the seconds of work, and the processor microseconds for each of so many finds.
func timed(count int, work func() error) {
	begin, before := time.Now(), used()
	if err := work(); err != nil {
		log.Fatal(err)
	}
	seconds := time.Since(begin).Seconds()
	fmt.Println(seconds, float64((used()-before).Nanoseconds())/1e3/float64(count))
}

func main() {
	single, _ := strconv.Atoi(os.Args[2])
	batched, _ := strconv.Atoi(os.Args[3])
	ctx, session := context.Background(), connect(os.Args[1])
	defer session.Close()
	if _, err := session.Load(ctx, "example.com.", "server1 A 192.0.2.1"); err != nil {
		log.Fatal(err)
	}
	uris, lines := make([]string, questions), make([]string, questions)
	for place := range uris {
		uris[place] = fmt.Sprintf("sip:server1.example.com:%d", 1+place*7919%questions)
		lines[place] = "find " + uris[place]
	}
	if _, err := session.Batch(ctx, lines); err != nil {
		log.Fatal(err)
	}
	errNoTarget := errors.New("no target")
	timed(single, func() error {
		for place := 0; place < single; place++ {
			answer, err := session.Find(ctx, uris[place%questions], siploc.Draws{})
			if err != nil {
				return err
			}
			if len(answer.Targets) != 1 {
				return errNoTarget
			}
		}
		return nil
	})
	timed(batched, func() error {
		for start := 0; start < batched; start += batch {
			replies, err := session.Batch(ctx, lines[start%questions:start%questions+batch])
			if err != nil {
				return err
			}
			for _, reply := range replies {
				if len(reply.Lines) != 2 {
					return errNoTarget
				}
			}
		}
		return nil
	})
}
