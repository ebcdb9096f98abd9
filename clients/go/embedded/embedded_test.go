package embedded

import (
	"context"
	"errors"
	"fmt"
	"sync"
	"testing"

	"siploc.example/clients/go/siploc"
)

// Sessions side by side, each with a book of its own.
func TestSessions(t *testing.T) {
	var all sync.WaitGroup
	for number := 0; number < 8; number++ {
		all.Add(1)
		go func(address string) {
			defer all.Done()
			session, err := Open(`held = "last"`)
			if err != nil {
				t.Error(err)
				return
			}
			defer session.Close()
			ctx := context.Background()
			if _, err := session.Load(ctx, "example.com.", "a A "+address+"\na A 192.0.2.100"); err != nil {
				t.Error(err)
			}
			answer, err := session.Find(ctx, "sip:a.example.com:5070", siploc.Draws{})
			if err != nil || len(answer.Targets) != 2 || answer.Targets[0].Address != address {
				t.Errorf("%v, %v", answer, err)
			}
		}(fmt.Sprintf("192.0.2.%d", number))
	}
	all.Wait()
}

func TestSettings(t *testing.T) {
	for _, settings := range []string{"x", "transports = []"} {
		if _, err := Open(settings); !errors.Is(err, ErrSettings) {
			t.Errorf("%q: %v", settings, err)
		}
	}
}

// A refusal, a batch, a call, and a session that is closed.
func TestReplies(t *testing.T) {
	session, err := Open("")
	if err != nil {
		t.Fatal(err)
	}
	ctx := context.Background()
	var refused *siploc.RefusedError
	if _, err := session.Drop(ctx, "example.com."); !errors.As(err, &refused) || refused.Code != "S2" {
		t.Errorf("%v", err)
	}
	zone, err := siploc.Zone("example.com.", "a A 192.0.2.1\na A 192.0.2.2")
	if err != nil {
		t.Fatal(err)
	}
	lines := []string{zone}
	for len(lines) < 20_000 {
		lines = append(lines, "find sip:a.example.com:5070", "hold udp 192.0.2.1 5070 1000", "release udp 192.0.2.1 5070")
	}
	replies, err := session.Batch(ctx, lines)
	if err != nil || len(replies) != len(lines) || len(replies[1].Lines) != 3 {
		t.Errorf("%d replies, %v", len(replies), err)
	}
	opened, err := session.Call(ctx, "invite", 1, "sip:a.example.com:5070", siploc.Draws{})
	if err != nil || len(opened.Steps) != 1 || opened.Steps[0].Kind != siploc.Send {
		t.Errorf("%v, %v", opened, err)
	}
	page, err := session.Page(ctx)
	if err != nil || page.Events < 20_000 {
		t.Errorf("%v, %v", page, err)
	}
	_ = session.Close()
	_ = session.Close()
	if _, err := session.Find(ctx, "sip:a.example.com:5070", siploc.Draws{}); !errors.Is(err, siploc.ErrNotConnected) {
		t.Errorf("%v", err)
	}
}

// Goroutines that share a session.
func TestShared(t *testing.T) {
	session, err := Open("")
	if err != nil {
		t.Fatal(err)
	}
	ctx := context.Background()
	if _, err := session.Load(ctx, "example.com.", "a A 192.0.2.1"); err != nil {
		t.Fatal(err)
	}
	var all sync.WaitGroup
	for number := 0; number < 8; number++ {
		all.Add(1)
		go func() {
			defer all.Done()
			for count := 0; count < 500; count++ {
				if answer, err := session.Find(ctx, "sip:a.example.com:5070", siploc.Draws{}); err != nil || len(answer.Targets) != 1 {
					t.Errorf("%v, %v", answer, err)
					return
				}
			}
		}()
	}
	all.Wait()
	_ = session.Close()
}
