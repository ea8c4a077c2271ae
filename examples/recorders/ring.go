// An election on a ring of goroutines, recorded. Recorder is the first half: copy it.
//
//	go run ring.go 4 7 DIR
//
// runs 4 nodes with draws from seed 7; each link is a channel. Node I writes DIR/I.log, as `ira` reads it, and who leads
// DIR/leaders.
package main

import (
	"fmt"
	"math/rand"
	"os"
	"strconv"
)

// Recorder writes the log of one node. One goroutine calls it, each time after the step that the record tells of.
type Recorder struct {
	file    *os.File
	records int
	place   int
	leaders string
	err     error
}

func NewRecorder(folder string, nodes, place int, initiator bool) *Recorder {
	file, err := os.Create(fmt.Sprintf("%s/%d.log", folder, place))
	r := &Recorder{file, -1, place, folder + "/leaders", err} // The head is no record.
	r.record("irlog 1\nnodes %d\nplace %d\nstart %s\n", nodes, place, map[bool]string{true: "initiator", false: "passive"}[initiator])
	return r
}

func (r *Recorder) Drew(id int) { r.record("draw %d\n", id) }

// Passed takes the word "send" once the message is on the link, "recv" once it is taken off.
func (r *Recorder) Passed(word string, m Message) {
	r.record("%s %d %d %d %s\n", word, m.Round, m.ID, m.Hop, map[bool]string{true: "dirty", false: "clean"}[m.Dirty])
}

// Leads is called once the node takes itself for the leader: its place comes into a file for all nodes, which begins
// empty.
func (r *Recorder) Leads() {
	leaders, err := os.OpenFile(r.leaders, os.O_APPEND|os.O_CREATE|os.O_WRONLY, 0o644)
	if err == nil {
		_, err = fmt.Fprintf(leaders, "%d\n", r.place)
		leaders.Close()
	}
	if r.err == nil {
		r.err = err
	}
}

// Close writes the end line, without which the log counts as cut off, and says what failed first.
func (r *Recorder) Close() error {
	r.record("end %d\n", r.records)
	if err := r.file.Close(); err != nil {
		return err
	}
	return r.err
}

// record hands the text to the system at once, so a node that is killed leaves all it did.
func (r *Recorder) record(format string, values ...any) {
	r.records++
	if r.err == nil {
		_, r.err = fmt.Fprintf(r.file, format, values...)
	}
}

type Message struct {
	Round, ID, Hop int
	Dirty          bool
}

type node struct {
	nodes          int
	draws          *rand.Rand
	log            *Recorder
	source, target chan Message // The links that it reads and writes.
}

// run is the election of one node. A closed link says that its writer has ended.
func (n *node) run(initiator bool) error {
	own := Message{} // The round and ID of an active node; a passive one has round 0.
	if initiator {
		own = n.choose(1)
	}
	for m := range n.source {
		n.log.Passed("recv", m)
		equal := m.Round == own.Round && m.ID == own.ID
		if equal && m.Hop == n.nodes && !m.Dirty {
			n.log.Leads()
			break
		} else if equal && m.Hop == n.nodes {
			own = n.choose(own.Round + 1)
		} else if equal {
			n.send(Message{m.Round, m.ID, m.Hop + 1, true})
		} else if m.Round > own.Round || m.Round == own.Round && m.ID > own.ID {
			own = Message{}
			n.send(Message{m.Round, m.ID, m.Hop + 1, m.Dirty})
		}
	}
	close(n.target)
	return n.log.Close()
}

func (n *node) choose(round int) Message {
	own := Message{round, n.draws.Intn(n.nodes) + 1, 1, false}
	n.log.Drew(own.ID)
	n.send(own)
	return own
}

func (n *node) send(m Message) {
	n.target <- m
	n.log.Passed("send", m)
}

func main() {
	nodes, _ := strconv.Atoi(os.Args[1])
	seed, _ := strconv.ParseInt(os.Args[2], 10, 64)
	if err := os.WriteFile(os.Args[3]+"/leaders", nil, 0o644); err != nil {
		panic(err)
	}
	links := make([]chan Message, nodes) // Link I leads from node I to node I+1, the last one to node 0.
	for i := range links {
		links[i] = make(chan Message, 2*nodes)
	}
	ended := make(chan error)
	for i := range links {
		draws, log := rand.New(rand.NewSource(seed*1000+int64(i))), NewRecorder(os.Args[3], nodes, i, true)
		n := &node{nodes, draws, log, links[(i+nodes-1)%nodes], links[i]}
		go func() { ended <- n.run(true) }()
	}
	for range links {
		if err := <-ended; err != nil {
			panic(err)
		}
	}
}
