// Records small histories of goroutines on a queue, a new queue for each: record QUEUE CAPACITY [HISTORIES]. A function in queues.go is what a queue of yours needs.
package main

import (
	"fmt"
	"math/rand"
	"os"
	"runtime"
	"strconv"
	"strings"
	"sync"
	"sync/atomic"
)

const parties, calls = 3, 8

func record(made []call, seed int64) []string {
	lines := make([]string, 2*parties*calls)
	var stamp, arrived atomic.Int64
	var ended sync.WaitGroup
	run := func(party int) {
		defer ended.Done()
		random := rand.New(rand.NewSource(seed*parties + int64(party)))
		arrived.Add(1)
		for spins := 0; arrived.Load() < parties; spins++ {
			if spins > 1000 {
				runtime.Gosched()
			}
		}
		for at := 0; at < calls; at++ {
			one := made[random.Intn(len(made))]
			value := 100*(party+1) + at
			begin := stamp.Add(1) - 1
			word, number := one.make(value)
			end := stamp.Add(1) - 1
			lines[begin] = words(party, one.name, one.argument(value))
			lines[end] = words(party, "=", word, number)
		}
	}
	ended.Add(parties)
	for party := 0; party < parties; party++ {
		go run(party)
	}
	ended.Wait()
	return lines
}

// The words of a line, without those that are empty.
func words(all ...any) string {
	return strings.Join(strings.Fields(fmt.Sprintln(all...)), " ")
}

func main() {
	capacity, _ := strconv.Atoi(os.Args[2])
	histories := 2000
	if len(os.Args) > 3 {
		histories, _ = strconv.Atoi(os.Args[3])
	}
	for seed := 0; seed < histories; seed++ {
		fmt.Println(strings.Join(record(queues[os.Args[1]](capacity), int64(seed)), "\n") + "\n")
	}
}
