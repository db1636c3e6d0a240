// The network of a script as goroutines: one for each task, and a buffered channel of the script's room for each ring.
// It reads a script of `count`, `number`, `upper` and `tally` on standard input, and prints its report.
package main

import (
	"bufio"
	"bytes"
	"os"
	"strconv"
	"strings"
	"sync"
)

// A task, with the channels that it takes from and puts out on, if it has such.
type task struct {
	name, kind string
	count      int
	from       chan []byte
	out        chan []byte
	kept       [][]byte
}

func (t *task) put(line []byte) {
	if t.out == nil {
		t.kept = append(t.kept, line)
		return
	}
	t.out <- line
}

func (t *task) run() {
	switch t.kind {
	case "count":
		for i := 1; i <= t.count; i++ {
			t.put(strconv.AppendInt(nil, int64(i), 10))
		}
	case "number":
		i := int64(0)
		for line := range t.from {
			i++
			numbered := append(strconv.AppendInt(make([]byte, 0, len(line)+8), i, 10), ' ')
			t.put(append(numbered, line...))
		}
	case "upper":
		for line := range t.from {
			t.put(bytes.ToUpper(line))
		}
	case "tally":
		lines := int64(0)
		for range t.from {
			lines++
		}
		t.put(strconv.AppendInt(nil, lines, 10))
	}
	if t.out != nil {
		close(t.out)
	}
}

func number(word string) int {
	n, err := strconv.Atoi(word)
	if err != nil {
		panic(err)
	}
	return n
}

// The tasks of the script on standard input, joined by channels.
func read() []*task {
	var tasks []*task
	names := map[string]*task{}
	room := 4
	lines := bufio.NewScanner(os.Stdin)
	for lines.Scan() {
		words := strings.Fields(lines.Text())
		switch words[0] {
		case "room":
			room = number(words[1])
		case "task":
			t := &task{name: words[1], kind: words[2]}
			if t.kind == "count" {
				t.count = number(words[3])
			} else {
				t.from = make(chan []byte, room)
				names[words[4]].out = t.from
			}
			names[t.name] = t
			tasks = append(tasks, t)
		}
	}
	return tasks
}

func main() {
	tasks := read()
	var all sync.WaitGroup
	for _, t := range tasks {
		all.Add(1)
		go func(t *task) {
			t.run()
			all.Done()
		}(t)
	}
	all.Wait()
	report := bufio.NewWriter(os.Stdout)
	for _, t := range tasks {
		for _, line := range t.kept {
			report.WriteString(t.name + ": ")
			report.Write(line)
			report.WriteByte('\n')
		}
	}
	if err := report.Flush(); err != nil {
		panic(err)
	}
}
