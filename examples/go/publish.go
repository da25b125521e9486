// publish ADDRESSES TOPIC: publishes each line of standard input as a record over libkp, and prints what became of it: `PARTITION
// NUMBER OUTCOME DETAIL`. One goroutine makes all calls on the producer; each connection has one that reads and one that writes.
package main

// #cgo pkg-config: kp
// #include <stdlib.h>
// #include "kp.h"
// static kp_config defaults(void) { return (kp_config)KP_CONFIG_DEFAULT; }
import "C"

import (
	"bufio"
	"fmt"
	"net"
	"os"
	"time"
	"unsafe"
)

// What has come of a node's connection: it was made, or bytes were read or written, or it has ended.
type event struct {
	node, attempt int
	conn          net.Conn
	read          []byte
	written       bool
	err           error
}

// The connection to a node, at the last attempt to make one.
type line struct {
	attempt int
	conn    net.Conn
	out     chan []byte
	isBusy  bool // The writer has bytes that are not written yet.
}

var (
	producer = (*C.kp_producer)(C.calloc(1, C.sizeof_kp_producer)) // The handle is never copied, so Go does not have it.
	began    = time.Now()
	now      C.uint64_t
	lines    = map[int]*line{}
	events   = make(chan event, 64)
)

// The address of bytes, which is never null.
func at(bytes []byte) *C.uint8_t {
	if len(bytes) == 0 {
		bytes = []byte{0}
	}
	return (*C.uint8_t)(unsafe.Pointer(&bytes[0]))
}

func lose(node int) {
	if it := lines[node]; it.conn != nil {
		it.conn.Close()
		close(it.out)
	}
	lines[node] = &line{attempt: lines[node].attempt + 1}
	C.kp_producer_lost(producer, C.uint32_t(node), now)
}

func connect(node int) {
	host, size, port := make([]byte, 256), C.size_t(0), C.uint16_t(0)
	C.kp_producer_address(producer, C.uint32_t(node), at(host), 256, &size, &port)
	if lines[node] == nil {
		lines[node] = &line{}
	}
	lines[node].attempt++
	address, attempt := net.JoinHostPort(string(host[:size]), fmt.Sprint(port)), lines[node].attempt
	go func() {
		conn, err := net.DialTimeout("tcp", address, 10*time.Second)
		events <- event{node: node, attempt: attempt, conn: conn, err: err}
		for err == nil {
			piece := make([]byte, 65536)
			var count int
			count, err = conn.Read(piece)
			events <- event{node: node, attempt: attempt, read: piece[:count], err: err}
		}
	}()
}

func open(node int, conn net.Conn) {
	it := lines[node]
	it.conn, it.out = conn, make(chan []byte, 1)
	attempt := it.attempt
	go func(out chan []byte) {
		for bytes := range out {
			_, err := conn.Write(bytes)
			events <- event{node: node, attempt: attempt, written: true, err: err}
		}
	}(it.out)
	if C.kp_producer_connected(producer, C.uint32_t(node), now) != C.KP_OK {
		lose(node)
	}
}

func hear(e event) {
	it := lines[e.node]
	switch {
	case e.attempt != it.attempt: // It was given up.
		if e.conn != nil {
			e.conn.Close()
		}
	case e.conn != nil:
		open(e.node, e.conn)
	default:
		if len(e.read) > 0 { // Where it is refused, KP_CLOSE comes.
			C.kp_producer_feed(producer, C.uint32_t(e.node), at(e.read), C.size_t(len(e.read)), now)
		}
		it.isBusy = it.isBusy && !e.written
		if e.err != nil {
			lose(e.node)
		}
	}
}

// Whether the line was accepted, or never will be.
func send(text []byte) bool {
	var span C.kp_span
	var ticket C.kp_ticket
	status := C.kp_producer_send(producer, -1, false, at(nil), 0, true, at(text), C.size_t(len(text)), &span, 0, at(nil), 0,
		C.int64_t(time.Now().UnixMilli()), now, &ticket)
	if status == C.KP_NOT_READY || status == C.KP_BUFFER_FULL || status == C.KP_OUT_OF_MEMORY {
		return false
	}
	if status != C.KP_OK {
		fmt.Fprintln(os.Stderr, "publish: a line is not sent: status", status)
	}
	return true
}

// Does what there is to do. The state then.
func turn() (state C.kp_state) {
	var action C.kp_action
	for C.kp_producer_next_action(producer, now, &action); action.kind != C.KP_NOTHING; C.kp_producer_next_action(producer, now, &action) {
		if action.kind == C.KP_CONNECT {
			connect(int(action.node))
		} else {
			lose(int(action.node))
		}
	}
	for node, it := range lines {
		room, count := make([]byte, 65536), C.size_t(0)
		if it.conn != nil && !it.isBusy {
			C.kp_producer_take(producer, C.uint32_t(node), now, at(room), C.size_t(len(room)), &count)
		}
		if count > 0 {
			it.isBusy = true
			it.out <- room[:count]
		}
	}
	var report C.kp_report
	for C.kp_producer_reports(producer, &report, 1) == 1 {
		words := make([]byte, 128)
		size := C.kp_outcome_words(report.outcome, at(words), 128)
		fmt.Println(report.partition, report.number, string(words[:size]), report.detail)
	}
	C.kp_producer_state(producer, &state)
	return state
}

func main() {
	if len(os.Args) != 3 {
		fmt.Fprintln(os.Stderr, "usage: publish ADDRESSES TOPIC")
		os.Exit(2)
	}
	addresses, topic, client, config := []byte(os.Args[1]), []byte(os.Args[2]), []byte("publish"), C.defaults()
	status := C.kp_producer_new(producer, &config, at(topic), C.size_t(len(topic)), at(client), C.size_t(len(client)), at(addresses),
		C.size_t(len(addresses)), C.uint64_t(began.UnixNano()), now)
	if status != C.KP_OK {
		fmt.Fprintln(os.Stderr, "publish: no producer is made: status", status)
		os.Exit(2)
	}
	texts := make(chan []byte, 1024)
	go func() {
		for input := bufio.NewScanner(os.Stdin); input.Scan(); {
			texts <- append([]byte(nil), input.Bytes()...)
		}
		close(texts)
	}()
	var pending []byte
	hasPending, isClosed := false, false
	state := turn()
	for state.phase != C.KP_FAILED && !(isClosed && state.untold == 0) {
		input := texts
		if hasPending || isClosed {
			input = nil
		}
		wait := time.Hour
		if due := C.kp_producer_next_due(producer, now); due < now+3600000 {
			wait = time.Duration(due-now) * time.Millisecond
		}
		timer := time.NewTimer(wait)
		select {
		case e := <-events:
			now = C.uint64_t(time.Since(began).Milliseconds())
			hear(e)
		case text, isThere := <-input:
			pending, hasPending, isClosed = text, isThere, !isThere
		case <-timer.C:
		}
		timer.Stop()
		now = C.uint64_t(time.Since(began).Milliseconds())
		C.kp_producer_tick(producer, now)
		for hasPending && send(pending) {
			select {
			case pending, hasPending = <-texts:
				isClosed = !hasPending
			default:
				hasPending = false
			}
		}
		if isClosed {
			C.kp_producer_close(producer)
		}
		state = turn()
	}
	C.kp_producer_free(producer)
	if state.phase == C.KP_FAILED {
		fmt.Fprintln(os.Stderr, "publish: no broker could be used in time")
		os.Exit(1)
	}
}
