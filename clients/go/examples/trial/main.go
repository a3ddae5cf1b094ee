// Has a store do what standard input says, and prints what came of it (../../../trials.py): trial HOST PORT MILLISECONDS
package main

import (
	"errors"
	"fmt"
	"io"
	"net"
	"os"
	"strconv"
	"strings"
	"sync"
	"sync/atomic"
	"time"

	"zanstore"
)

const rounds = 100

var latest = zanstore.Freshness{}

// How many answers are wrong where goroutines share the store, each with a tuple of its own: that of every other one is there.
func shared(s *zanstore.Store, tuples []string) int64 {
	var wrong int64
	var all sync.WaitGroup
	for number, text := range tuples {
		all.Add(1)
		go func(text string, wanted bool) {
			defer all.Done()
			for round := 0; round < rounds; round++ {
				if member, _, err := s.Check(text, latest); err != nil || member != wanted {
					atomic.AddInt64(&wrong, 1)
				}
			}
		}(text, number%2 == 0)
	}
	all.Wait()
	return wrong
}

func givenUp(s *zanstore.Store, text string) (any, error) {
	limit, tries := s.Limit, s.Tries
	s.Limit, s.Tries = 200*time.Millisecond, 1
	found, _, err := s.Check(text, latest)
	s.Limit, s.Tries = limit, tries
	if errors.Is(err, os.ErrDeadlineExceeded) {
		return "given up", nil
	}
	return found, err
}

// All events up to the first answer without one.
func watched(s *zanstore.Store, token string, namespaces []string) (any, error) {
	watch, found := s.Watch(token, namespaces...), []string{}
	watch.Pause = 0
	for {
		events, err := watch.Next()
		if err != nil || len(events) == 0 {
			return strings.Join(found, " "), err
		}
		for _, event := range events {
			found = append(found, fmt.Sprint(event.Place, event.Change[:1]))
		}
	}
}

func explained(s *zanstore.Store, text string) (any, error) {
	why, err := s.Why(text, latest)
	if why.Path == nil {
		return "none: " + strings.Join(why.Walked, " "), err
	}
	return strings.Join(why.Path, " "), err
}

func done(s *zanstore.Store, command string, words []string) (found any, err error) {
	switch command {
	case "write":
		_, err = s.Write(zanstore.Write{Touch: words})
		found = "wrote"
	case "check":
		found, _, err = s.Check(words[0], latest)
	case "check-many":
		var members []bool
		members, _, err = s.CheckMany(words, latest)
		found = strings.Trim(fmt.Sprint(members), "[]")
	case "why":
		found, err = explained(s, words[0])
	case "watch":
		found, err = watched(s, words[0], words[1:])
	case "shared":
		found = shared(s, words)
	case "give-up":
		found, err = givenUp(s, words[0])
	case "close":
		s.Close()
		found = "closed"
	case "pause":
		limit, _ := strconv.Atoi(words[0])
		time.Sleep(time.Duration(limit) * time.Millisecond)
		found = "paused"
	case "tuple":
		found, err = zanstore.Tuple(words[0], words[1], zanstore.User(words[2]))
	case "userset":
		found, err = zanstore.Tuple(words[0], words[1], zanstore.Userset(words[2], words[3]))
	case "place":
		found, err = zanstore.Place(words[0])
	case "newest":
		found, err = zanstore.Newest(words[0], words[1])
	}
	return found, err
}

// What came of a line.
func told(found any, err error) any {
	var refused zanstore.Refused
	var text zanstore.TextError
	switch {
	case err == nil:
		return found
	case errors.As(err, &refused):
		return fmt.Sprint("refused ", refused)
	case errors.Is(err, zanstore.ErrNoAnswer):
		return "no answer"
	case errors.As(err, &text):
		return "not a text"
	}
	return "gone"
}

func main() {
	limit, _ := strconv.Atoi(os.Args[3])
	s := zanstore.New(net.JoinHostPort(os.Args[1], os.Args[2]))
	s.Limit = time.Duration(limit) * time.Millisecond
	commands, _ := io.ReadAll(os.Stdin)
	for _, line := range strings.Split(string(commands), "\x1e") {
		words := strings.Split(line, "\x1f")
		fmt.Println(told(done(s, words[0], words[1:])))
	}
}
