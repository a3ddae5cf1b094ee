// Shows each call over a server of store 1: tour HOST PORT
package main

import (
	"fmt"
	"net"
	"os"
	"strings"

	"zanstore"
)

// What was found; an error ends the program.
func must[T any](found T, err error) T {
	if err != nil {
		fmt.Fprintln(os.Stderr, "tour:", err)
		os.Exit(1)
	}
	return found
}

func row(sets [][]string, _ string, err error) (string, error) {
	if err != nil {
		return "", err
	}
	return strings.Join(sets[0], " "), nil
}

func main() {
	if len(os.Args) != 3 {
		fmt.Fprintln(os.Stderr, "usage: tour HOST PORT")
		os.Exit(2)
	}
	s := zanstore.New(net.JoinHostPort(os.Args[1], os.Args[2]))
	defer s.Close()
	member := must(zanstore.Tuple("group:staff", "member", zanstore.User("ann")))
	viewer := must(zanstore.Tuple("doc:plan", "viewer", zanstore.Userset("group:staff", "member")))
	token := must(s.Write(zanstore.Write{Touch: []string{member, viewer}}))
	fmt.Println("wrote", token)
	for _, id := range []string{"ann", "bob"} {
		asked := must(zanstore.Tuple("doc:plan", "viewer", zanstore.User(id)))
		member, _, err := s.Check(asked, zanstore.Freshness{AtLeast: token})
		fmt.Println(id, "may view:", must(member, err))
	}
	editor := must(zanstore.Tuple("doc:plan", "editor", zanstore.User("bob")))
	lock := must(zanstore.Tuple("doc:plan", "lock", zanstore.User("lock")))
	later := must(s.Edit("doc:plan", lock, func([]string) zanstore.Write { return zanstore.Write{Touch: []string{editor}} }))
	fmt.Println("edited", later)
	fmt.Println("now:", must(row(s.Read(zanstore.Freshness{AtLeast: must(zanstore.Newest(token, later))}, "doc:plan"))))
	fmt.Println("then:", must(row(s.Read(zanstore.Freshness{Exact: token}, "doc:plan"))))
	_, err := s.Write(zanstore.Write{Delete: []string{editor}, Conditions: []zanstore.Condition{zanstore.Absent(editor)}})
	fmt.Println("refused", err)
	for watch := s.Watch(zanstore.Start(1), "doc", "group"); ; {
		events := must(watch.Next())
		for _, event := range events {
			fmt.Println(event.Place, event.Change, event.Tuple)
		}
		if len(events) == 0 {
			return
		}
	}
}
