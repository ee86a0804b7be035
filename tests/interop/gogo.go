// gogo protobuf, as go-libp2p uses it: `gogo write` turns lines of words into lines of hex, `gogo read` the other way round.
// README.md describes the words.
package main

import (
	"bufio"
	"encoding/hex"
	"fmt"
	"os"
	"strconv"
	"strings"

	pb "gossipsub"
)

const absent = "-"

func check(err error) {
	if err != nil {
		panic(err)
	}
}

// from words

func toBytes(word string) []byte {
	if word == absent {
		return nil
	}
	bytes, err := hex.DecodeString(word)
	check(err)
	return bytes
}

func toList(words []string) (list [][]byte) {
	for _, word := range words {
		list = append(list, toBytes(word))
	}
	return list
}

func toString(word string) *string {
	if word == absent {
		return nil
	}
	text := string(toBytes(word))
	return &text
}

func toNumber(word string) *uint64 {
	if word == absent {
		return nil
	}
	number, err := strconv.ParseUint(word, 10, 64)
	check(err)
	return &number
}

func toBool(word string) *bool {
	if word == absent {
		return nil
	}
	truth := word == "1"
	return &truth
}

func toPeers(words []string) (peers []*pb.PeerInfo) {
	for _, word := range words {
		pair := strings.Split(word, "/")
		peers = append(peers, &pb.PeerInfo{PeerID: toBytes(pair[0]), SignedPeerRecord: toBytes(pair[1])})
	}
	return peers
}

func fromWords(line string) *pb.RPC {
	rpc := &pb.RPC{}
	for _, item := range strings.Fields(line) {
		w := strings.Split(item, ",")
		c := rpc.Control
		switch w[0] {
		case "sub":
			rpc.Subscriptions = append(rpc.Subscriptions, &pb.SubOpts{Subscribe: toBool(w[1]), TopicID: toString(w[2])})
		case "publish":
			rpc.Publish = append(rpc.Publish, &pb.Message{From: toString(w[1]), Data: toBytes(w[2]), Seqno: toBytes(w[3]),
				Topic: toString(w[4]), Signature: toBytes(w[5]), Key: toBytes(w[6])})
		case "control":
			rpc.Control = &pb.ControlMessage{}
		case "ihave":
			c.Ihave = append(c.Ihave, &pb.ControlIHave{TopicID: toString(w[1]), MessageIDs: toList(w[2:])})
		case "iwant":
			c.Iwant = append(c.Iwant, &pb.ControlIWant{MessageIDs: toList(w[1:])})
		case "graft":
			c.Graft = append(c.Graft, &pb.ControlGraft{TopicID: toString(w[1])})
		case "prune":
			c.Prune = append(c.Prune, &pb.ControlPrune{TopicID: toString(w[1]), Backoff: toNumber(w[2]), Peers: toPeers(w[3:])})
		case "idontwant":
			c.Idontwant = append(c.Idontwant, &pb.ControlIDontWant{MessageIDs: toList(w[1:])})
		default:
			panic("unknown item " + item)
		}
	}
	return rpc
}

// to words

func ofBytes(bytes []byte) string {
	if bytes == nil {
		return absent
	}
	return hex.EncodeToString(bytes)
}

func ofList(list [][]byte) (words []string) {
	for _, bytes := range list {
		words = append(words, hex.EncodeToString(bytes))
	}
	return words
}

func ofString(text *string) string {
	if text == nil {
		return absent
	}
	return hex.EncodeToString([]byte(*text))
}

func ofNumber(number *uint64) string {
	if number == nil {
		return absent
	}
	return strconv.FormatUint(*number, 10)
}

func ofBool(truth *bool) string {
	if truth == nil {
		return absent
	}
	if *truth {
		return "1"
	}
	return "0"
}

func ofPeers(peers []*pb.PeerInfo) (words []string) {
	for _, peer := range peers {
		words = append(words, ofBytes(peer.PeerID)+"/"+ofBytes(peer.SignedPeerRecord))
	}
	return words
}

func toWords(rpc *pb.RPC) string {
	var items []string
	say := func(name string, words []string, more ...string) {
		items = append(items, strings.Join(append(append([]string{name}, words...), more...), ","))
	}
	for _, s := range rpc.Subscriptions {
		say("sub", []string{ofBool(s.Subscribe), ofString(s.TopicID)})
	}
	for _, m := range rpc.Publish {
		say("publish", []string{ofString(m.From), ofBytes(m.Data), ofBytes(m.Seqno), ofString(m.Topic), ofBytes(m.Signature), ofBytes(m.Key)})
	}
	if rpc.Control != nil {
		say("control", nil)
	}
	for _, c := range rpc.Control.GetIhave() {
		say("ihave", []string{ofString(c.TopicID)}, ofList(c.MessageIDs)...)
	}
	for _, c := range rpc.Control.GetIwant() {
		say("iwant", ofList(c.MessageIDs))
	}
	for _, c := range rpc.Control.GetGraft() {
		say("graft", []string{ofString(c.TopicID)})
	}
	for _, c := range rpc.Control.GetPrune() {
		say("prune", []string{ofString(c.TopicID), ofNumber(c.Backoff)}, ofPeers(c.Peers)...)
	}
	for _, c := range rpc.Control.GetIdontwant() {
		say("idontwant", ofList(c.MessageIDs))
	}
	return strings.Join(items, " ")
}

func write(line string) string {
	bytes, err := fromWords(line).Marshal()
	check(err)
	return hex.EncodeToString(bytes)
}

func read(line string) string {
	bytes, err := hex.DecodeString(line)
	check(err)
	rpc := &pb.RPC{}
	if rpc.Unmarshal(bytes) != nil {
		return "refused"
	}
	return toWords(rpc)
}

func main() {
	turn := map[string]func(string) string{"write": write, "read": read}[os.Args[1]]
	lines := bufio.NewScanner(os.Stdin)
	lines.Buffer(nil, 1<<20)
	out := bufio.NewWriter(os.Stdout)
	for lines.Scan() {
		fmt.Fprintln(out, turn(lines.Text()))
	}
	check(lines.Err())
	check(out.Flush())
}
