package main

import (
	"fmt"
	"sync"
)

// A call that is recorded: it is made with a value, and gives the words of its reply, the value or number of it apart.
type call struct {
	name string
	make func(value int) (string, any)
}

func (c call) argument(value int) string {
	if c.name == "push" {
		return fmt.Sprint(value)
	}
	return ""
}

// A channel with a buffer.
func channel(capacity int) []call {
	queue := make(chan int, capacity)
	push := call{"push", func(value int) (string, any) {
		select {
		case queue <- value:
			return "ok", ""
		default:
			return "full", value
		}
	}}
	pop := call{"pop", func(int) (string, any) {
		select {
		case value := <-queue:
			return "item", value
		default:
			return "empty", ""
		}
	}}
	return []call{push, pop, push, pop, {"len", func(int) (string, any) { return "", len(queue) }}}
}

// A wrong queue: its pop looks at the front under the lock, and takes it off under the lock once more.
func wrong(capacity int) []call {
	var lock sync.Mutex
	var items []int
	front := func(take bool) (value int, found bool) {
		lock.Lock()
		defer lock.Unlock()
		if len(items) == 0 {
			return 0, false
		}
		value = items[0]
		if take {
			items = items[1:]
		}
		return value, true
	}
	push := call{"push", func(value int) (string, any) {
		lock.Lock()
		defer lock.Unlock()
		if len(items) == capacity {
			return "full", value
		}
		items = append(items, value)
		return "ok", ""
	}}
	pop := call{"pop", func(int) (string, any) {
		value, found := front(false)
		front(true)
		if !found {
			return "empty", ""
		}
		return "item", value
	}}
	return []call{push, pop}
}

var queues = map[string]func(int) []call{"channel": channel, "wrong": wrong}
