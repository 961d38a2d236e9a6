package main

import (
	"encoding/base64"
	"io"
	"net"
	"os"
	"sync"

	time "driven/vtime"
)

// A stream between two members. What is written is kept until the writer reads or closes; then it goes out as one message.
type stream struct {
	lock    sync.Mutex
	ready   *sync.Cond
	from    *node
	to      int
	id      int // its number at the member that opened it
	opened  bool
	out     []byte
	in      []byte
	ended   bool // nothing comes any more
	expired bool
	sent    bool
	limit   *time.Timer
}

func newStream(from *node, to, id int, opened bool) *stream {
	s := &stream{from: from, to: to, id: id, opened: opened}
	s.ready = sync.NewCond(&s.lock)
	return s
}

// What memberlist's first byte on a stream says: 6 begins a push and a pull, all else is a call and its answer.
func (s *stream) word(data []byte) string {
	table := len(data) > 0 && data[0] == 6
	switch {
	case s.opened && table:
		return "push"
	case s.opened:
		return "call"
	case table:
		return "pull"
	}
	return "answer"
}

func (s *stream) send() {
	if len(s.out) == 0 || s.sent {
		return
	}
	s.sent = true
	s.from.send(s.word(s.out), s.to, map[string]interface{}{
		"stream": s.id, "opened": s.opened, "data": base64.StdEncoding.EncodeToString(s.out)}, true)
}

func (s *stream) take(data []byte) {
	s.lock.Lock()
	s.in, s.ended = append(s.in, data...), true
	s.lock.Unlock()
	s.ready.Broadcast()
}

func (s *stream) Write(b []byte) (int, error) {
	s.lock.Lock()
	defer s.lock.Unlock()
	s.out = append(s.out, b...)
	return len(b), nil
}

func (s *stream) Read(b []byte) (int, error) {
	s.lock.Lock()
	defer s.lock.Unlock()
	if s.opened {
		s.send()
	}
	for len(s.in) == 0 && !s.ended && !s.expired {
		s.ready.Wait()
	}
	if len(s.in) > 0 {
		n := copy(b, s.in)
		s.in = s.in[n:]
		return n, nil
	}
	if s.ended {
		return 0, io.EOF
	}
	return 0, os.ErrDeadlineExceeded
}

func (s *stream) Close() error {
	s.lock.Lock()
	s.send()
	s.ended = true
	s.lock.Unlock()
	if s.limit != nil {
		s.limit.Stop()
	}
	s.ready.Broadcast()
	delete(s.from.streams, s.id)
	return nil
}

func (s *stream) SetDeadline(t time.Time) error {
	if s.limit != nil {
		s.limit.Stop()
	}
	s.limit = time.AfterFunc(time.Until(t), func() {
		s.lock.Lock()
		s.expired = true
		s.lock.Unlock()
		s.ready.Broadcast()
	})
	return nil
}

func (s *stream) SetReadDeadline(t time.Time) error  { return s.SetDeadline(t) }
func (s *stream) SetWriteDeadline(t time.Time) error { return nil }
func (s *stream) LocalAddr() net.Addr                { return address(s.from.index) }
func (s *stream) RemoteAddr() net.Addr               { return address(s.to) }
