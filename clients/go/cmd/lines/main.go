// Lines sends request lines to a service, each when the reply to the one before was printed.
//
//	lines ADDRESS < REQUEST-LINES
//
// It ends with 1 where the service ends the connection before a reply is whole, or a line is no request line.
package main

import (
	"bufio"
	"context"
	"fmt"
	"io"
	"os"
	"time"

	"nexus"
)

// answer is the reply to a request line, which is waited for half a minute.
func answer(client *nexus.Client, line string) (nexus.Reply, error) {
	request, err := nexus.ParseLine(line)
	if err != nil {
		return nil, err
	}
	ctx, cancel := context.WithTimeout(context.Background(), 30*time.Second)
	defer cancel()
	return client.Ask(ctx, request)
}

// play sends the lines of the input, and prints each reply.
func play(address string, input io.Reader) error {
	client, err := nexus.Dial(context.Background(), address)
	if err != nil {
		return err
	}
	defer client.Close()
	lines := bufio.NewScanner(input)
	for lines.Scan() {
		reply, err := answer(client, lines.Text())
		if err != nil {
			return err
		}
		fmt.Println(reply)
	}
	return lines.Err()
}

func main() {
	if len(os.Args) != 2 {
		fmt.Fprintln(os.Stderr, "lines ADDRESS < REQUEST-LINES")
		os.Exit(2)
	}
	if err := play(os.Args[1], os.Stdin); err != nil {
		fmt.Fprintln(os.Stderr, err)
		os.Exit(1)
	}
}
