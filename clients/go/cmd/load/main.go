// Load asks a service for calls over several connections, and prints how many a second all of them made, and how many
// microseconds 99 of 100 waited at most. bench/serve/run.sh runs it.
//
//	load PORT CONNECTIONS COUNT DEPTH
//
// Connection K is principal pK with the secret sK, and makes COUNT calls of `read oK`, DEPTH of them at a time. Each has
// to be allowed.
package main

import (
	"context"
	"fmt"
	"os"
	"sort"
	"strconv"
	"sync"
	"time"

	"nexus"
)

// connect is a session of the principal with this number.
func connect(port, number int) *nexus.Client {
	client, err := nexus.Dial(context.Background(), fmt.Sprintf("127.0.0.1:%d", port))
	check(err)
	_, err = client.Hello(context.Background(), fmt.Sprintf("p%d", number), fmt.Sprintf("s%d", number))
	check(err)
	return client
}

// calls makes the calls of one connection, and keeps how long each waited.
func calls(client *nexus.Client, object string, depth int, waits []time.Duration) {
	burst := make([]nexus.Request, depth)
	for at := range burst {
		burst[at] = nexus.Call{Operation: "read", Object: object}
	}
	for at := 0; at < len(waits); at += depth {
		sent := time.Now()
		check(client.Send(context.Background(), burst...))
		for turn := range burst {
			reply, err := client.Receive(context.Background())
			check(err)
			if _, isAllowed := reply.(nexus.Allowed); !isAllowed {
				check(fmt.Errorf("a call is answered %v", reply))
			}
			waits[at+turn] = time.Since(sent)
		}
	}
}

func check(err error) {
	if err != nil {
		fmt.Fprintln(os.Stderr, "load:", err)
		os.Exit(1)
	}
}

// numbers are the words of the command, which has four.
func numbers() (found [4]int) {
	if len(os.Args) != 5 {
		check(fmt.Errorf("load PORT CONNECTIONS COUNT DEPTH"))
	}
	for at := range found {
		number, err := strconv.Atoi(os.Args[at+1])
		check(err)
		found[at] = number
	}
	return found
}

func main() {
	words := numbers()
	port, connections, count, depth := words[0], words[1], words[2], words[3]
	if depth < 1 || count%depth != 0 {
		check(fmt.Errorf("DEPTH has to divide COUNT"))
	}
	clients := make([]*nexus.Client, connections)
	for at := range clients {
		clients[at] = connect(port, at)
	}
	waits := make([]time.Duration, connections*count)
	var all sync.WaitGroup
	begun := time.Now()
	for at, client := range clients {
		at, client := at, client
		all.Add(1)
		go func() {
			defer all.Done()
			calls(client, fmt.Sprintf("o%d", at), depth, waits[at*count:(at+1)*count])
		}()
	}
	all.Wait()
	passed := time.Since(begun)
	sort.Slice(waits, func(a, b int) bool { return waits[a] < waits[b] })
	fmt.Printf("%.0f %d\n", float64(len(waits))/passed.Seconds(), waits[len(waits)-1-len(waits)/100].Microseconds())
}
