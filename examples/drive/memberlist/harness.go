// Drives HashiCorp's memberlist in the world of a scenario: each member of the scenario is a memberlist of this process.
//
//	memberlist-driven swimsim drive FILE --trace T
//
// starts the words behind its name as a child and answers its events. memberlist decides as ever; its settings are the
// scenario's, its clock and its transport the world's. A tick is a millisecond.
package main

import (
	"bufio"
	"encoding/base64"
	"encoding/json"
	"fmt"
	"io"
	"log"
	"math/rand"
	"net"
	"os"
	"os/exec"
	"runtime"
	"runtime/debug"
	"strings"
	"sync"

	time "driven/vtime"

	"github.com/hashicorp/memberlist"
)

const port = 7946

type payload struct {
	Data   string
	Stream int
	Opened bool
}

type event struct {
	Moment                    int64
	Member, From, Event, What string
	ID                        int
	Seed                      int64
	Contact                   string
	Members, Founders         []string
	Payload                   payload
}

type action = map[string]interface{}

// One member: a memberlist, and its side of the world.
type node struct {
	index   int
	list    *memberlist.Memberlist
	lock    sync.Mutex
	actions []action
	timers  []func()
	packets chan *memberlist.Packet
	accepts chan net.Conn
	streams map[int]*stream
	opened  int
	known   []memberlist.Known
	health  int
}

var (
	settings map[string]int
	config   *memberlist.Config
	names    []string
	founders []string
	numbers  = map[string]int{}
	nodes    []*node
	current  *node
)

func address(index int) *net.TCPAddr {
	return &net.TCPAddr{IP: net.IPv4(10, 0, byte(index/250), byte(index%250+1)), Port: port}
}

func number(addr string) int {
	var a, b, c, d, p int
	fmt.Sscanf(addr, "%d.%d.%d.%d:%d", &a, &b, &c, &d, &p)
	return c*250 + d - 1
}

func (n *node) act(a action) {
	n.lock.Lock()
	n.actions = append(n.actions, a)
	n.lock.Unlock()
}

func (n *node) row(what, about string, value int) {
	n.act(action{"row": what, "about": about, "value": value})
}

func (n *node) send(word string, to int, held map[string]interface{}, isStream bool) {
	n.act(action{"send": word, "to": names[to], "payload": held, "stream": isStream})
}

// ---- memberlist's transport

// What a packet is called in the trace: by its first message, behind a checksum and the head of a compound message.
func word(b []byte) string {
	if len(b) > 5 && b[0] == 12 {
		return word(b[5:])
	}
	if len(b) > 2 && b[0] == 7 && len(b) > 2+2*int(b[1]) {
		return word(b[2+2*int(b[1]):])
	}
	switch b[0] {
	case 0:
		return "ping"
	case 1:
		return "ping-req"
	case 2:
		return "ack"
	case 11:
		return "nack"
	}
	return "gossip"
}

func (n *node) WriteTo(b []byte, addr string) (time.Time, error) {
	n.send(word(b), number(addr), map[string]interface{}{"data": base64.StdEncoding.EncodeToString(b)}, false)
	return time.Now(), nil
}

func (n *node) DialTimeout(addr string, limit time.Duration) (net.Conn, error) {
	n.opened++
	s := newStream(n, number(addr), n.opened, true)
	n.streams[n.opened] = s
	return s, nil
}

func (n *node) PacketCh() <-chan *memberlist.Packet { return n.packets }
func (n *node) StreamCh() <-chan net.Conn           { return n.accepts }
func (n *node) Shutdown() error                     { return nil }
func (n *node) FinalAdvertiseAddr(string, int) (net.IP, int, error) {
	return address(n.index).IP, port, nil
}

// ---- what it says of its decisions: its log and its table

func (n *node) Write(line []byte) (int, error) {
	text := string(line)
	if place := strings.Index(text, "Suspect "); place >= 0 && strings.Contains(text, "has failed, no acks received") {
		n.row("fail", strings.Fields(text[place:])[1], 0)
	} else if strings.Contains(text, "Refuting a") {
		n.row("refute", names[n.index], 0)
	}
	return len(line), nil
}

var rows = map[memberlist.NodeStateType]string{memberlist.StateAlive: "alive", memberlist.StateSuspect: "suspect",
	memberlist.StateDead: "confirm", memberlist.StateLeft: "confirm"}

// Writes the rows of what an event has changed in a member's table, and of its health.
func (n *node) compare() {
	for index, name := range names {
		was, now := n.known[index], n.list.Known(name)
		if index == n.index || was == now {
			continue
		}
		n.known[index] = now
		switch {
		case !now.Is:
			n.row("forget", name, int(was.Incarnation))
		case !was.Is && now.State == memberlist.StateAlive:
			n.row("joined", name, int(now.Incarnation))
		case !was.Is || was.State != now.State || was.Incarnation != now.Incarnation:
			n.row(rows[now.State], name, int(now.Incarnation))
			was.Confirmations = 0
		}
		for count := was.Confirmations + 1; count <= now.Confirmations; count++ {
			n.row("accuse", name, int(count))
		}
	}
	if health := n.list.GetHealthScore(); health != n.health {
		n.health = health
		n.act(action{"row": "health", "value": health})
	}
}

// ---- events

// A member begins within `spread` ticks, so that its periods aren't those of all; but the first founder, whom the others
// join, begins at once.
func (n *node) start(e *event) {
	spread := rand.Intn(settings["swim.spread"])
	contact := e.Contact
	if contact == "" && len(founders) > 0 && founders[0] != e.Member {
		contact = founders[0]
	}
	if contact == "" {
		n.create()
		return
	}
	time.AfterFunc(time.Duration(spread)*time.Millisecond, func() {
		n.create()
		n.list.Join([]string{address(numbers[contact]).String()})
	})
}

func (n *node) create() {
	own := *config
	own.Name, own.Transport, own.Logger = names[n.index], n, log.New(n, "", 0)
	own.BindAddr, own.AdvertiseAddr, own.AdvertisePort = address(n.index).IP.String(), address(n.index).IP.String(), port
	list, err := memberlist.Create(&own)
	if err != nil {
		log.Fatal(err)
	}
	n.list = list
}

func (n *node) message(e *event) {
	from := numbers[e.From]
	data, _ := base64.StdEncoding.DecodeString(e.Payload.Data)
	switch {
	case e.Payload.Stream == 0:
		n.packets <- &memberlist.Packet{Buf: data, From: address(from), Timestamp: time.Now()}
	case e.Payload.Opened:
		s := newStream(n, from, e.Payload.Stream, false)
		s.take(data)
		n.accepts <- s
	default:
		if s := n.streams[e.Payload.Stream]; s != nil {
			s.take(data)
		}
	}
}

func (n *node) handle(e *event) {
	switch e.Event {
	case "start":
		n.start(e)
	case "timer":
		n.timers[e.ID]()
		n.timers[e.ID] = nil
	case "message":
		n.message(e)
	case "leave":
		if n.list != nil {
			go n.list.Leave(5 * time.Second)
		}
	}
}

// Waits until all goroutines but this one wait for something. On one processor Gosched lets the others run until none can;
// but one in 61 times the scheduler takes this one first, and a goroutine that was stopped after 10 ms comes behind it.
func settle() {
	for turn := 0; turn < 3; turn++ {
		runtime.Gosched()
	}
}

func answer(e *event, out *bufio.Writer) {
	time.Clock = epoch.Add(time.Duration(e.Moment) * time.Millisecond)
	current = nodes[numbers[e.Member]]
	current.actions = []action{}
	current.handle(e)
	settle()
	if current.list != nil {
		current.compare()
	}
	line, _ := json.Marshal(current.actions)
	out.Write(append(line, '\n'))
}

var epoch = time.Unix(0, 0)

func begin(e *event) {
	rand.Seed(e.Seed)
	settings = readSettings(scenario(os.Args[1:]))
	config = configOf(settings)
	names, founders = e.Members, e.Founders
	for index, name := range names {
		numbers[name] = index
		nodes = append(nodes, &node{index: index, packets: make(chan *memberlist.Packet, 4096), accepts: make(chan net.Conn, 64),
			streams: map[int]*stream{}, known: make([]memberlist.Known, len(names))})
	}
	time.Schedule = func(after time.Duration, call func()) {
		n := current
		n.lock.Lock()
		defer n.lock.Unlock()
		ticks := int64((after + time.Millisecond - 1) / time.Millisecond)
		if ticks < 1 {
			ticks = 1
		}
		n.actions = append(n.actions, action{"timer": len(n.timers), "after": ticks})
		n.timers = append(n.timers, call)
	}
}

// The scenario: what stands right behind the word `drive`.
func scenario(words []string) string {
	for place, word := range words[:len(words)-1] {
		if word == "drive" {
			return words[place+1]
		}
	}
	log.Fatal("no word `drive` before a scenario")
	return ""
}

func main() {
	runtime.GOMAXPROCS(1)
	debug.SetGCPercent(-1) // a collection would hold goroutines up; it is made while all wait
	world := exec.Command(os.Args[1], os.Args[2:]...)
	world.Stderr = os.Stderr
	events, _ := world.StdoutPipe()
	answers, _ := world.StdinPipe()
	if err := world.Start(); err != nil {
		log.Fatal(err)
	}
	in, out := bufio.NewReaderSize(events, 1<<20), bufio.NewWriter(answers)
	for count := 1; ; count++ {
		line, err := in.ReadBytes('\n')
		if err == io.EOF {
			break
		}
		var e event
		if err := json.Unmarshal(line, &e); err != nil {
			log.Fatal(err)
		}
		if len(e.Members) > 0 {
			begin(&e)
		}
		if e.Event != "crash" && e.Event != "end" {
			answer(&e, out)
		}
		if in.Buffered() == 0 {
			out.Flush()
		}
		if count%4096 == 0 {
			runtime.GC()
		}
	}
	if err := world.Wait(); err != nil {
		os.Exit(world.ProcessState.ExitCode())
	}
}
