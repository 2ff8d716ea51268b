# The work of cycles.c in Nim, whose collector of cycles is ORC.
#
#   nim c -d:release --mm:orc cycles.nim; ./cycles [SIZE [LIVE]]
#
# The lines are those of cycles.c. Nim has one heap, so a native with its script object and its reflector is three objects of a
# ring here. Those that live are in a list, and not in a chain: a long chain is deleted by calls within calls.
import std/[os, strformat, strutils, times]

type Node = ref object
  next: Node

var live: seq[Node]

proc makeRing(objects: int) =
  let first = Node()
  var last = first
  for _ in 1 ..< objects:
    let made = Node(next: last)
    last = made
  first.next = last

proc run(name: string, cycles, objects, beside: int) =
  live = newSeq[Node](beside)
  for node in live.mitems:
    node = Node()
  GC_fullCollect()
  GC_disableOrc()
  let before = getOccupiedMem()
  let start = cpuTime()
  for _ in 1 .. cycles:
    makeRing(objects)
  let made = cpuTime()
  GC_fullCollect()
  let ended = cpuTime()
  GC_enableOrc()
  if getOccupiedMem() - before > cycles * objects * 4:
    quit("cycles.nim: " & name & ": objects are left")
  let each = float(cycles * objects) / 1e9
  let what = if beside > 0: ", beside others that live" else: ""
  echo &"{name}{what}\t{int((made - start) / each + 0.5)}\t{int((ended - made) / each + 0.5)}"

let size = if paramCount() > 0: parseInt(paramStr(1)) else: 200_000
let beside = if paramCount() > 1: parseInt(paramStr(2)) else: 100_000
for others in [0, beside]:
  run("cycles of two", size, 2, others)
  run("one ring", 1, size, others)
  run("cycles with script", size, 3, others)
  run("one ring with script", 1, 3 * size, others)
