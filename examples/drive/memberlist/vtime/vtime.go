// Package vtime stands for the package time in a program whose clock is a simulation's. It has what memberlist uses of it.
package vtime

import "time"

type (
	Duration = time.Duration
	Time     = time.Time
	Month    = time.Month
)

const (
	Nanosecond  = time.Nanosecond
	Microsecond = time.Microsecond
	Millisecond = time.Millisecond
	Second      = time.Second
	Minute      = time.Minute
	Hour        = time.Hour
)

var (
	// Clock is what Now reports. The simulation sets it.
	Clock time.Time
	// Schedule has a function called in the simulation after a while; the simulation sets it.
	Schedule func(after Duration, call func())
)

func Now() Time                 { return Clock }
func Since(t Time) Duration     { return Clock.Sub(t) }
func Until(t Time) Duration     { return t.Sub(Clock) }
func Unix(sec, nsec int64) Time { return time.Unix(sec, nsec) }

// Timer is a timer of the simulation. One that was stopped still comes, and does nothing then.
type Timer struct {
	C    <-chan Time
	call func()
	run  *bool
}

func (t *Timer) set(after Duration) {
	live := true
	t.run = &live
	Schedule(after, func() {
		if live {
			live = false
			t.call()
		}
	})
}

// Stop stops it, and says whether it would have come.
func (t *Timer) Stop() bool {
	was := *t.run
	*t.run = false
	return was
}

// Reset sets it anew, and says whether it would have come before.
func (t *Timer) Reset(after Duration) bool {
	was := t.Stop()
	t.set(after)
	return was
}

func NewTimer(after Duration) *Timer {
	c := make(chan Time, 1)
	t := &Timer{C: c, call: func() {
		select {
		case c <- Clock:
		default:
		}
	}}
	t.set(after)
	return t
}

func After(after Duration) <-chan Time { return NewTimer(after).C }

func Sleep(after Duration) { <-After(after) }

// AfterFunc calls a function in a goroutine of its own.
func AfterFunc(after Duration, call func()) *Timer {
	t := &Timer{call: func() { go call() }}
	t.set(after)
	return t
}

// Ticker ticks until it is stopped.
type Ticker struct {
	C       <-chan Time
	stopped bool
}

func (t *Ticker) Stop() { t.stopped = true }

func NewTicker(every Duration) *Ticker {
	c := make(chan Time, 1)
	t := &Ticker{C: c}
	var tick func()
	tick = func() {
		if t.stopped {
			return
		}
		select {
		case c <- Clock:
		default:
		}
		Schedule(every, tick)
	}
	Schedule(every, tick)
	return t
}
