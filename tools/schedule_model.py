"""What a cluster answers to the lines of a script, as docs/SCRIPT.md says it, in plain Python: a NameNode, DataNodes, the recoveries that
they lead, and all messages that were sent. It knows files in one directory whose rights let everybody do all, and one key. It has no
line in common with the program: check-schedules compares the two."""

from collections import namedtuple

SOFT, HARD, RETRY, DEAD, TOKEN = 60_000, 1_200_000, 60_000, 630_000, 36_000_000
PACKET, REPLICA = 65_536, 134_217_728

Grant = namedtuple("Grant", "user block modes expiry")
# of a replica, with a token: who asks, for which block at which stamp, with the token of which row, and what else
Call = namedtuple("Call", "verb caller block stamp row more")
# to whom it goes, 0 is the NameNode; its kind; and what it brings
Message = namedtuple("Message", "to kind content")


class Refused(Exception):
    pass


class File:
    def __init__(self, owner, replication):
        self.owner, self.replication, self.blocks = owner, replication, []
        # who writes it, if somebody does, and whether it is in recovery
        self.writer, self.recovering = owner, False


class Block:
    def __init__(self, stamp, targets, replication):
        self.stamp, self.targets, self.replication = stamp, targets, replication
        self.reports, self.length, self.since, self.copied = {}, None, None, None

    def is_with(self, node):
        return node in self.targets or node in self.reports


class Held:
    """What a DataNode has of a block: the greatest stamp that it had or answered, and the replica's stamp, state and bytes."""

    def __init__(self):
        self.promised, self.stamp, self.is_writing, self.bytes = 0, None, False, b""

    def place(self, stamp, is_writing, content):
        self.promised = self.stamp = stamp
        self.is_writing, self.bytes = is_writing, content


class Plan:
    def __init__(self, nodes, row):
        self.nodes, self.row, self.answers, self.decision, self.updated = nodes, row, {}, None, set()


class Node:
    def __init__(self):
        self.clock, self.has_key, self.held, self.plans = 0, False, {}, {}


class Cluster:
    def __init__(self):
        self.clock, self.files, self.blocks, self.heard, self.renewed = 0, {}, {}, {}, {}
        self.marks, self.queued, self.grants = set(), {}, []
        self.next_block, self.next_stamp = 1, 1001
        self.nodes = {node: Node() for node in range(1, 9)}
        self.messages = []
        # of the last line: what a DataNode was asked that a token covers, the message that came, and the recoveries that began
        self.asked, self.came, self.begun = None, None, []

    def step(self, line):
        """The answer to a line, without its number."""
        moment, caller, *words = line.split()
        moment, first = int(moment), len(self.messages) + 1
        self.asked, self.came, self.begun = None, None, []
        try:
            if words[0] == "deliver" and caller == "-":
                answer = self.deliver(moment, int(words[1]))
            elif words[0].startswith("@"):
                answer = self.called(moment, caller, int(words[0][1:]), words[1], words[2:])
            else:
                answer = self.request(moment, caller, words[0], words[1:])
        except Refused as refusal:
            answer = str(refusal)
        last = len(self.messages)
        return answer if last < first else f"{answer} sent {first}-{last}"

    def send(self, to, kind, *content):
        self.messages.append(Message(to, kind, content))

    # ---- calls of DataNodes, and deliveries

    def called(self, moment, caller, node, verb, words):
        if verb in ("decide", "commit"):
            if caller != f"dn-{node}":
                return "bad 0 BadLine"
            self.node(node)
            return getattr(self, verb)(node, int(words[0]), int(words[1]))
        row = int(words[-1][1:])
        if not 1 <= row <= len(self.grants):
            return "bad 0 BadLine"
        block, stamp = int(words[0]), int(words[1])
        behind = [] if words[-2] == "-" or verb == "read" else [int(one) for one in words[-2].split(",")]
        if verb == "begin":
            more = (behind,)
        elif verb == "packet":
            more = (int(words[2]), payload(words[3]), behind)
        elif verb == "finalize":
            more = (int(words[2]), behind)
        else:
            more = (int(words[2]), int(words[3]))
        return self.present(moment, node, Call(verb, caller, block, stamp, row, more))

    def deliver(self, moment, number):
        if not 1 <= number <= len(self.messages):
            raise Refused("refused D1 NoMessage")
        message = self.messages[number - 1]
        self.came = message
        if message.kind == "call":
            return self.present(moment, message.to, *message.content)
        if message.kind in ("reported", "commitrecovery"):
            node, *content = message.content
            return self.request(moment, f"dn-{node}", message.kind, content)
        node = self.node(message.to)
        if message.kind in ("keys", "remove"):
            node.clock = max(node.clock, moment)
        return getattr(self, "take_" + message.kind)(message.to, *message.content)

    def node(self, number):
        if number not in self.nodes:
            raise Refused("refused D2 NoNode")
        return self.nodes[number]

    def take_keys(self, number):
        self.nodes[number].has_key = True
        return "ok keys 1"

    def take_remove(self, number, block, stamp):
        held = self.nodes[number].held.get(block, Held())
        if held.stamp is None:
            raise Refused("refused R1 NoReplica")
        if held.stamp > stamp:
            raise Refused(f"refused R2 StampDiffers {held.stamp}")
        held.stamp = None
        return "ok removed"

    def present(self, moment, number, call):
        node = self.node(number)
        self.asked = (number, call)
        node.clock = max(node.clock, moment)
        grant = self.grants[call.row - 1]
        user = f"dn-{number}" if call.verb == "sendcopy" else call.caller
        mode = "r" if call.verb in ("read", "sendcopy") else "w"
        if not node.has_key:
            raise Refused("refused T2 UnknownKey")
        if node.clock >= grant.expiry:
            raise Refused("refused T4 Expired")
        if user != grant.user:
            raise Refused("refused T5 WrongUser")
        if call.block != grant.block:
            raise Refused("refused T6 WrongBlock")
        if mode not in grant.modes:
            raise Refused("refused T7 WrongMode")
        held = node.held.get(call.block, Held())
        answer = getattr(self, "do_" + call.verb)(number, held, call, *call.more)
        node.held[call.block] = held
        return answer

    def pass_on(self, call, behind, *more):
        if behind:
            self.send(behind[0], "call", call._replace(more=(*more, behind[1:])))

    def do_begin(self, number, held, call, behind):
        if held.stamp is not None:
            raise Refused("refused R6 ReplicaExists")
        if call.stamp <= held.promised:
            raise Refused(f"refused R2 StampDiffers {held.promised}")
        held.place(call.stamp, True, b"")
        self.pass_on(call, behind)
        return "ok begun"

    def expect_writing(self, held, call, length):
        if held.stamp is None:
            raise Refused("refused R1 NoReplica")
        if call.stamp != held.promised:
            raise Refused(f"refused R2 StampDiffers {held.promised}")
        if not held.is_writing or held.stamp < held.promised:
            raise Refused("refused R4 NotWritable")
        if length != len(held.bytes):
            raise Refused(f"refused R5 OffsetGap {len(held.bytes)}")

    def do_packet(self, number, held, call, offset, content, behind):
        self.expect_writing(held, call, offset)
        if len(content) > PACKET or offset + len(content) > REPLICA:
            raise Refused("refused R3 OutOfRange")
        held.bytes += content
        self.pass_on(call, behind, offset, content)
        return f"ok taken {len(held.bytes)}"

    def do_finalize(self, number, held, call, length, behind):
        self.expect_writing(held, call, length)
        held.is_writing = False
        self.pass_on(call, behind, length)
        self.send(0, "reported", number, call.block, call.stamp, length)
        return f"ok finalized {length}"

    def expect_finalized(self, held, call):
        if held.stamp is None or held.is_writing:
            raise Refused("refused R1 NoReplica")
        if held.stamp != call.stamp:
            raise Refused(f"refused R2 StampDiffers {held.stamp}")

    def do_read(self, number, held, call, offset, length):
        self.expect_finalized(held, call)
        if offset + length > len(held.bytes):
            raise Refused("refused R3 OutOfRange")
        return f"ok read {held.bytes[offset:offset + length].hex()}".rstrip()

    def do_sendcopy(self, number, held, call, target):
        self.expect_finalized(held, call)
        self.send(target, "call", call._replace(verb="takecopy", caller=f"dn-{number}", more=(held.bytes,)))
        return f"ok copied {len(held.bytes)}"

    def do_takecopy(self, number, held, call, content):
        if held.stamp is not None:
            raise Refused("refused R6 ReplicaExists")
        if call.stamp < held.promised:
            raise Refused(f"refused R2 StampDiffers {held.promised}")
        held.place(call.stamp, False, content)
        self.send(0, "reported", number, call.block, call.stamp, len(content))
        return f"ok stored {len(content)}"

    def do_init(self, number, held, call, leader):
        if held.stamp is None:
            raise Refused("refused R1 NoReplica")
        if call.stamp <= held.promised:
            raise Refused(f"refused R2 StampDiffers {held.promised}")
        held.promised = call.stamp
        state = "writing" if held.is_writing else "finalized"
        self.send(leader, "reply", number, call.block, call.stamp, state, len(held.bytes))
        return f"ok replica {held.stamp} {len(held.bytes)} {state}"

    def do_update(self, number, held, call, leader, length):
        if held.stamp is None:
            raise Refused("refused R1 NoReplica")
        if call.stamp != held.promised:
            raise Refused(f"refused R2 StampDiffers {held.promised}")
        if held.stamp == call.stamp:
            raise Refused("refused R4 NotWritable")
        if len(held.bytes) < length:
            raise Refused("refused R3 OutOfRange")
        held.place(call.stamp, False, held.bytes[:length])
        self.send(leader, "updated", number, call.block, call.stamp)
        self.send(0, "reported", number, call.block, call.stamp, length)
        return f"ok updated {length}"

    # ---- recoveries that a DataNode leads

    def take_recover(self, number, block, stamp, nodes, row):
        plans = self.nodes[number].plans
        newest = max((own[1] for own in plans if own[0] == block), default=0)
        if newest >= stamp:
            raise Refused(f"refused P1 AlreadyBegun {newest}")
        plans[block, stamp] = Plan(nodes, row)
        for node in nodes:
            self.send(node, "call", Call("init", f"dn-{number}", block, stamp, row, (number,)))
        return f"ok asked {len(nodes)}"

    def plan(self, number, block, stamp):
        plan = self.nodes[number].plans.get((block, stamp))
        if plan is None:
            raise Refused("refused P2 Stranger")
        return plan

    def take_reply(self, number, node, block, stamp, state, length):
        plan = self.plan(number, block, stamp)
        if node in plan.answers:
            raise Refused("refused P3 Doubled")
        if plan.decision or node not in plan.nodes:
            raise Refused("refused P2 Stranger")
        plan.answers[node] = (state, length)
        return "ok noted"

    def decide(self, number, block, stamp):
        plan = self.plan(number, block, stamp)
        if plan.decision:
            raise Refused("refused P2 Stranger")
        if not plan.answers:
            raise Refused("refused P4 NoReplicaAnswered")
        ended = [length for state, length in plan.answers.values() if state == "finalized"]
        length = min(ended or [length for _, length in plan.answers.values()])
        nodes = sorted(node for node, (state, own) in plan.answers.items() if state == "finalized" or own >= length)
        plan.decision = (length, nodes)
        for node in nodes:
            self.send(node, "call", Call("update", f"dn-{number}", block, stamp, plan.row, (number, length)))
        return f"ok length {length} nodes {listed(nodes)}"

    def take_updated(self, number, node, block, stamp):
        plan = self.plan(number, block, stamp)
        if node in plan.updated:
            raise Refused("refused P3 Doubled")
        if not plan.decision or node not in plan.decision[1]:
            raise Refused("refused P2 Stranger")
        plan.updated.add(node)
        return "ok noted"

    def commit(self, number, block, stamp):
        plan = self.plan(number, block, stamp)
        if not plan.decision:
            raise Refused("refused P2 Stranger")
        if not plan.updated:
            raise Refused("refused P4 NoReplicaAnswered")
        self.send(0, "commitrecovery", number, block, stamp, plan.decision[0], sorted(plan.updated))
        return f"ok committed {plan.decision[0]}"

    # ---- requests to the NameNode

    def request(self, moment, caller, verb, words):
        self.clock = max(self.clock, moment)
        return getattr(self, "ask_" + verb)(caller, *words)

    def grant(self, user, block, modes):
        self.grants.append(Grant(user, block, modes, self.clock + TOKEN))
        return len(self.grants)

    def file(self, path):
        if path not in self.files:
            raise Refused("refused 2 NotFound")
        return self.files[path]

    def age(self, user):
        return self.clock - self.renewed[user]

    def live(self):
        return [node for node in sorted(self.heard) if self.clock - self.heard[node] <= DEAD]

    def load(self, node):
        return sum(block.is_with(node) for block in self.blocks.values())

    def fewest(self, nodes):
        return sorted(nodes, key=lambda node: (self.load(node), node))

    def unfinished(self, file):
        """The number of a file's last block, where that has no length."""
        return file.blocks[-1] if file.blocks and self.blocks[file.blocks[-1]].length is None else None

    def leader(self, block):
        live = self.live()
        nodes = [node for node in self.blocks[block].targets if node in live]
        return min(nodes, key=lambda node: (-self.heard[node], node), default=None)

    def begin_recovery(self, file, number):
        block = self.blocks[number]
        self.queued[number] = self.leader(number)
        block.stamp, block.reports, block.since = self.next_stamp, {}, self.clock
        self.next_stamp += 1
        file.writer, file.recovering = None, True
        self.begun.append((number, block.stamp))

    def forget(self, file):
        for number in file.blocks:
            block = self.blocks.pop(number)
            self.queued.pop(number, None)
            self.marks |= {(node, number, block.stamp) for node in [*block.targets, *block.reports]}

    def set_length(self, number, length, keep=()):
        """The length is committed; who reported another one is to remove his replica."""
        block = self.blocks[number]
        block.length = length
        for node in [node for node, own in block.reports.items() if own != length]:
            del block.reports[node]
            if node not in keep:
                self.marks.add((node, number, block.stamp))

    def ask_mkdirs(self, caller, path, mode):
        return "ok"

    def ask_create(self, caller, path, mode, replication, over=None):
        if path in self.files:
            if over is None:
                raise Refused("refused 5 Exists")
            self.forget(self.files[path])
        self.files[path] = File(caller, int(replication))
        self.renewed[caller] = self.clock
        return "ok"

    def ask_append(self, caller, path):
        file = self.file(path)
        if file.recovering:
            raise Refused("refused 12 RecoveryRunning")
        if file.writer is None:
            file.writer = caller
            self.renewed[caller] = self.clock
            return "ok"
        if file.writer == caller or self.age(file.writer) <= SOFT:
            raise Refused(f"refused 11 LeaseHeld {file.writer}")
        number = self.unfinished(file)
        if number is None:
            file.writer = None
            return "ok released"
        if self.leader(number) is None:
            raise Refused("refused 16 TooFewNodes")
        self.begin_recovery(file, number)
        return f"ok recovering {number} {self.blocks[number].stamp}"

    def written(self, caller, path, last, length):
        """The file that the caller writes, whose last block he names with a length that was reported."""
        file = self.file(path)
        if file.recovering:
            raise Refused("refused 12 RecoveryRunning")
        if file.writer is None:
            raise Refused("refused 14 NotOpen")
        if file.writer != caller:
            raise Refused("refused 13 NoLease")
        own = file.blocks[-1] if file.blocks else None
        if (None if last is None else int(last)) != own:
            raise Refused("refused 15 NotYetReplicated")
        if own is not None and int(length) not in self.blocks[own].reports.values():
            raise Refused("refused 15 NotYetReplicated")
        return file

    def ask_addblock(self, caller, path, last=None, length=None):
        file = self.written(caller, path, last, length)
        live = self.live()
        if not live:
            raise Refused("refused 16 TooFewNodes")
        if last is not None:
            self.set_length(int(last), int(length))
        targets = sorted(self.fewest(live)[: file.replication])
        number, stamp = self.next_block, self.next_stamp
        self.next_block, self.next_stamp = number + 1, stamp + 1
        self.blocks[number] = Block(stamp, targets, file.replication)
        file.blocks.append(number)
        return f"ok block {number} {stamp} targets {listed(targets)} token #{self.grant(caller, number, 'w')}"

    def ask_complete(self, caller, path, last=None, length=None):
        file = self.written(caller, path, last, length)
        if last is not None:
            self.set_length(int(last), int(length))
        file.writer = None
        return f"ok closed {self.length(file)}"

    def length(self, file):
        return sum(self.blocks[number].length or 0 for number in file.blocks)

    def ask_open(self, caller, path):
        file = self.file(path)
        text = f"ok open {self.length(file)}"
        for number in file.blocks:
            block = self.blocks[number]
            if block.length is not None:
                row = self.grant(caller, number, "r")
                text += f" {number}:{block.stamp}:{block.length}:{listed(sorted(block.reports))}:#{row}"
        return text

    def ask_stat(self, caller, path):
        file = self.file(path)
        state = "recovering" if file.recovering else f"open:{file.writer}" if file.writer else "closed"
        return f"ok file 0666 {file.owner} supergroup {file.replication} {self.length(file)} {state}"

    def ask_delete(self, caller, path):
        self.forget(self.file(path))
        del self.files[path]
        return "ok deleted 1"

    def ask_rename(self, caller, path, target):
        self.file(path)
        if target == path:
            raise Refused("refused 8 UnderItself")
        if target in self.files:
            raise Refused("refused 5 Exists")
        self.files[target] = self.files.pop(path)
        return "ok"

    def ask_setrep(self, caller, path, replication):
        file = self.file(path)
        file.replication = int(replication)
        for number in file.blocks:
            self.blocks[number].replication = int(replication)
        return "ok"

    def ask_renew(self, caller):
        if all(file.writer != caller for file in self.files.values()):
            raise Refused("refused 13 NoLease")
        self.renewed[caller] = self.clock
        return "ok"

    def ask_tick(self, caller):
        if caller != "hdfs":
            return "denied / superuser by superuser"
        closed = 0
        for path in sorted(self.files):
            file = self.files[path]
            number = self.unfinished(file)
            if file.recovering:
                if self.clock - self.blocks[number].since > RETRY and self.leader(number) is not None:
                    self.begin_recovery(file, number)
            elif file.writer is not None and self.age(file.writer) > HARD:
                if number is None:
                    file.writer = None
                    closed += 1
                elif self.leader(number) is not None:
                    self.begin_recovery(file, number)
        return f"ok closed {closed} recovering {len(self.begun)}"

    def ask_heartbeat(self, caller):
        if not caller.startswith("dn-"):
            return "denied / node by node"
        node = int(caller[3:])
        self.heard[node] = self.clock
        self.send(node, "keys")
        for number in sorted(number for number, leader in self.queued.items() if leader == node):
            del self.queued[number]
            block = self.blocks[number]
            self.send(node, "recover", number, block.stamp, block.targets, self.grant(caller, number, "w"))
        for mark in sorted(mark for mark in self.marks if mark[0] == node):
            self.marks.remove(mark)
            self.send(node, "remove", *mark[1:])
        live = self.live()
        for number, target in [(number, self.copy_of(number, node, live)) for number in sorted(self.blocks)]:
            if target is not None:
                block = self.blocks[number]
                block.copied = self.clock
                call = Call("sendcopy", caller, number, block.stamp, self.grant(caller, number, "rw"), (target,))
                self.send(node, "call", call)
        return "ok heartbeat"

    def copy_of(self, number, node, live):
        """To whom a DataNode is to copy a block now, if it is."""
        block = self.blocks[number]
        reporting = [one for one in live if one in block.reports]
        if block.length is None or len(reporting) >= block.replication or reporting[:1] != [node]:
            return None
        if block.copied is not None and self.clock - block.copied <= RETRY:
            return None
        return next(iter(self.fewest(one for one in live if one not in block.reports)), None)

    def ask_reported(self, caller, number, stamp, length):
        node, block = int(caller[3:]), self.blocks.get(number)
        if block is not None and stamp < block.stamp and block.since is not None:
            return "ok"
        if block is not None and stamp == block.stamp and block.length in (None, length):
            block.reports[node] = length
            return "ok"
        self.marks.add((node, number, stamp))
        if block is not None and stamp == block.stamp:
            block.reports.pop(node, None)
        return "ok"

    def ask_commitrecovery(self, caller, number, stamp, length, nodes):
        block = self.blocks.get(number)
        if block is None:
            raise Refused("refused 2 NotFound")
        if stamp != block.stamp:
            raise Refused(f"refused 17 StaleStamp {block.stamp}")
        if block.since is None:
            raise Refused("refused 14 NotOpen")
        self.set_length(number, length, keep=nodes)
        block.since, block.targets = None, nodes
        block.reports |= {node: length for node in nodes}
        file = next(file for file in self.files.values() if number in file.blocks)
        file.recovering = False
        return "ok"


def listed(nodes):
    return ",".join(str(node) for node in nodes) or "-"


def payload(word):
    """Bytes in hexadecimal digits, or one byte many times."""
    count, star, byte = word.partition("*")
    return bytes.fromhex(byte) * int(count) if star else bytes.fromhex(word)
