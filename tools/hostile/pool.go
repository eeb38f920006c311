// A pool of connections as Go's net/http keeps it, over which some callers ask by GET and others by HEAD: pool URL GETS. It prints how
// many of so many GETs were answered otherwise than the first, or saw bytes that nobody asked for, and the first fault.
package main

import (
	"fmt"
	"io"
	"log"
	"net/http"
	"os"
	"strconv"
	"sync"
)

const connections = 4

var client = http.Client{Transport: &http.Transport{MaxConnsPerHost: connections, MaxIdleConnsPerHost: connections}}

// Counts what net/http says of bytes that come where no reply is due, and keeps the first.
type strays struct {
	one   sync.Mutex
	count int
	first string
}

func (all *strays) Write(line []byte) (int, error) {
	all.one.Lock()
	defer all.one.Unlock()
	all.count++
	if all.first == "" {
		all.first = string(line)
	}
	return len(line), nil
}

func get(url string) (string, error) {
	reply, err := client.Get(url)
	if err != nil {
		return "", err
	}
	defer reply.Body.Close()
	text, err := io.ReadAll(reply.Body)
	return reply.Status + string(text), err
}

func main() {
	var unasked strays
	log.SetOutput(&unasked)
	url := os.Args[1]
	gets, err := strconv.Atoi(os.Args[2])
	if err != nil {
		panic(err)
	}
	wanted, err := get(url)
	if err != nil {
		panic(err)
	}
	var all sync.WaitGroup
	var one sync.Mutex
	broken, first := 0, ""
	for number := 0; number < 2*connections; number++ {
		share := gets / (2 * connections)
		if number == 0 {
			share += gets % (2 * connections)
		}
		all.Add(1)
		go func() {
			defer all.Done()
			for turn := 0; turn < share; turn++ {
				if turn%4 == 0 {
					if reply, err := client.Head(url); err == nil {
						reply.Body.Close()
					}
				}
				if told, err := get(url); err != nil || told != wanted {
					one.Lock()
					broken++
					if first == "" {
						first = fmt.Sprint(err, " ", told)
					}
					one.Unlock()
				}
			}
		}()
	}
	all.Wait()
	fmt.Println(broken+unasked.count, first+unasked.first)
}
