#!/usr/bin/env python3
"""Writes docs/THEOREM.md: what the top call of the program says, clause by clause, with each definition that one has to believe.

    docs/theorem.py            writes the page
    docs/theorem.py --check    says whether the page is current, and exits with 1 if it isn't
    docs/theorem.py --numbers  counts the definitions that each clause reaches, and writes nothing
"""
import collections
import re
import sys

from sources import CRATES, NAME, TOP, kind, modules, reached, written

CALL = CRATES / "ehci_cli/src/program.rt"

# What each clause says, in the order in which one reads them.
SAYS = {
    "headline": "The theorem in one sentence, part by part; the clauses below say each part in full, and of more endpoints and moments. `PrintsStreams`: the bytes that the printed report tells of an endpoint begin its stream, until a line "
                "tells its end: of each bulk and interrupt endpoint at high speed, of each OUT endpoint of either kind behind a port of a hub of the script, and of each IN endpoint there, where no `control` line to that hub clears a "
                "buffer (CLEAR_TT_BUFFER) or resets a translator (RESET_TT). `ActsOnRequests`: the requests of each control endpoint at high speed of a device that is no hub are right. `AdmitsAtWork`: the open of a "
                "periodic endpoint that passes the checks before is refused for want of a placement exactly where each that it may have breaks a budget. `DoesWhatIsDue`: of each periodic endpoint of which no cancel was accepted, in a "
                "microframe that isn't held, where no more than 4 microseconds went for complete-splits made again, what is due as the microframe begins is done in it. At high speed the packet of an interrupt endpoint moves, where its "
                "device is ready and none of its packets is lost, and the slot of an iTD is written back; behind hubs the split transactions of interrupt and isochronous endpoints are made, and what the device of an interrupt endpoint "
                "says to its translator is heard in the frame, and taken, where nothing of it is lost. `TouchesNoneReleased`: the controller touches no word after its release.",
    "output": "Where the bytes of the input are known, what is written is what the form defines of them: for `run` and `image` the report or the memory after the whole run "
              "of the script that they spell, for `check` and `dump` its text, else the first fault. The run is that of the table machine (driver, controller, hubs, devices), "
              "event by event, with the driver's job where a script clears halts. Where it clears none every line was carried out, and there is no job at the end; else the "
              "run may have stopped in a microframe that hadn't ended after 67,108,864 turns.",
    "first": "A script of version 1 clears no halt: its grammar has no line for it.",
    "drawn": "The script that is drawn for `load` is one of these, so each clause of `OfEachPlainScript` speaks of its run.",
    "plain": "At each moment of the run of a script that clears no halt, which is each of version 1 (`first`) and of version 2 each without a `clear` line, the driver is at no job, no endpoint was reset, and the world is that of the table machine "
             "whose driver knows no jobs: so what the clauses below say of its moments is said of what is run.",
    "microframes": "Each microframe that a script lets pass ends after at most 17,957,823 events of the controller, each followed by one of the driver; so each line of the script is carried "
                   "out, and the report that `output` speaks of stands after the whole run.",
    "budgets": "At each moment of each script, clears and all, what is placed keeps every budget of bus time; and where no clear is under way, the open of a periodic endpoint that passes the checks before is refused for want of a "
               "placement exactly where each placement that it may have, in version 2 of a script one that leaves time for stuffed bits, breaks a budget beside what is placed.",
    "lent": "At each moment the controller's next event reads and writes words of Lent blocks alone, the blocks that the driver's next event gives back are Free right after that event, and each word of a Free block is 0.",
    "owned": "At each moment the Lent blocks are those that the driver still needs, each run of blocks with one owner, but for those that the unfinished command has still to lend.",
    "schedule": "At each moment the driver's list has in each frame the queue heads of the interrupt endpoints that are placed there and not cancelled, each once and no others, and of each isochronous "
                "endpoint at most one waiting descriptor, due in that frame. An endpoint that is being cancelled keeps its placement, and with it its bus time, until it is given back, though no frame need have its queue head.",
    "memory": "At each moment, read from the words of memory, the ring is the head and the queue head of each live bulk and control endpoint, each once, with words 1 and 2 of its endpoint; and each frame's links lead "
              "through its members of the driver's list, also between the stores by which one is opened, linked or unlinked. An endpoint that isn't cancelled is in the ring or in its frames, and a descriptor that waits is "
              "linked once no command is unfinished. The walk of the ring stands at queue heads of the ring or at those that left since the last answered doorbell was rung; and the controller runs, meets no fault and is "
              "refused no word. Of what qTDs, overlays and the words of isochronous descriptors other than links hold it says nothing.",
    "reach": "At each moment all that the controller can come to from where it stands is Lent: the frame list and the ring's head, what either walk is at or holds a copy of, what links lead to, and of what "
             "works the qTDs and each byte of its buffer; no link leads to a frame span traversal node.",
    "owners": "From each moment to the next: each word that an event of the controller changes is one of its own, and none that an event of the driver, or a command, changes is one. Of what it can come to these are its own: "
              "words 3 to 11 of a queue head that isn't halted, the token of an active qTD, the word of an active microframe of an iTD, words 3 to 5 of an active siTD, and the words of the bytes that are still to come into a buffer.",
    "releases": "What left the ring is given back only after the doorbell was rung since its unlinking and Async Advance was then read; what left the frame list only after two readings of FRINDEX since then "
                "with different frame numbers.",
    "given_back": "What was given back each later event of the controller leaves alone until it is lent again: it writes none of it, and it leaves the same whatever stands there.",
    "links": "At each moment the link of each live queue head of the ring leads to a live one, and each link of the frame list and of its members is the end or leads to a live member, also between the stores by which "
             "one is linked or unlinked; the link of a queue head that left the ring leads to a live one, or to one that left later, and that of a queue head or an isochronous descriptor that left the frame list to the end of a frame, to a live "
             "member, or to one that left later, each until it is given back; and while the doorbell is pending, and until Async Advance is cleared after it, one batch is rung: all of it left before that ringing, and what waits left since.",
    "visits": "In one microframe the walk of the frames visits no structure twice, and each in its frame, or in one from which it was unlinked in this microframe, and once it is over it has visited each to which the links of the frame led as "
              "the microframe began, and to which they lead still; in a held microframe no time is left; the asynchronous part ends for one of the standard's reasons, and a structure that is visited has its transaction, or is passed without it for one of the standard's reasons alone.",
    "within_load": "What the walk of the frames has deducted in a microframe are the prices of its transactions, and words 1 and 2 of the queue heads in the frames are those of descriptions and allowed placements. These prices, but for complete-splits that are made again, come at each moment to at most the plan's load there, and at most 100 microseconds.",
    "in_time": "In a microframe that isn't held, while no more than 4 microseconds went for complete-splits made again, no transaction of the periodic part is skipped for want of time; where all periodic endpoints are of high speed, none is made again.",
    "repeats": "At each moment: while no packet of a transaction of the walk of the frames was lost or damaged in a microframe, no complete-split was made again in it, whatever translators and devices say.",
    "translators": "At each moment, of each translator of each hub: each entry of its pipeline has had the byte-times that the plan lays for it in the microframes of the frame before the last, less 188 for each microframe after its first "
                   "that brought no part of an isochronous OUT while it lacked its last, or all that its start-splits call for; and from one microframe after the last in which something is laid for it the result of an interrupt, and the last bytes of an isochronous IN, are there. "
                   "Where endpoints have stuffed bits, what is laid whole is done and answered one microframe later.",
    "due": "Once the walk of the frames is over in a microframe, it came to the queue head of each interrupt endpoint that has this frame, was in the frame list as the microframe began and is in it still; and what was due of one "
           "of high speed as the walk came to it (a transfer, a microframe of its S-mask that isn't held, a device that is ready, none of the three packets lost) moved its packet and was written back, where no more than 4 microseconds went for "
           "complete-splits made again.",
    "due_at_begin": "Once the walk of the frames is over in a microframe, what was due of an interrupt endpoint of high speed as the microframe began (a transfer, a microframe of its S-mask that isn't held, a device that is ready, "
                    "none of the next three packets lost) moved its packet and was written back, unless a cancel of it was accepted since, and where no more than 4 microseconds went for complete-splits made again.",
    "packets": "An interrupt IN endpoint at high speed that goes on, isn't halted and is in the frame list has a transfer that is stored and of which a qTD is still active, and its device has a packet for it as a microframe begins: no NAK, "
               "and no longer than what comes next has room for. Where the microframe is one of its S-mask that isn't held, its device knows as many packets to be accepted as the host accepted (`pipes`), and none of the next three "
               "packets is lost or damaged, a transaction is due then in the sense of `due_at_begin`; so the packet moved and was written back once the walk of the frames is over, unless a cancel of the endpoint was accepted since, "
               "and where no more than 4 microseconds went for complete-splits made again.",
    "slots": "Once the walk of the frames is over in a microframe that isn't held, where no more than 4 microseconds went for complete-splits made again: the iTDs to which it came with the slot of this microframe active are those that were "
             "written back in it.",
    "slots_at_begin": "Once the walk of the frames is over in such a microframe: each slot of an iTD that was active as the microframe began, "
                      "where the links of its frame led to the iTD then, is written back in it, unless a cancel of its endpoint was accepted since; "
                      "and so is that of a cancelled endpoint's iTD to which they lead at each moment of the microframe nevertheless.",
    "splits_at_begin": "Once the walk of the frames is over in such a microframe: of an interrupt endpoint below a hub that was in the frame list "
                       "as the microframe began, a start-split that was due then is made in it and written back, its queue head waiting for "
                       "its complete-splits: in a microframe of its S-mask, where its queue head came to work on something and no split "
                       "transaction of it was under way; and a complete-split, in each microframe of its C-mask where it waited and none was "
                       "missed, after which it waits further where the translator answers NYET and a later one comes; unless a cancel of it "
                       "was accepted since. What the translator answers is in clause `translators`, and that it is taken in `results`.",
    "results": "Once the walk of the frames is over in such a microframe: of an interrupt endpoint below a hub of which a complete-split was due as the "
               "microframe began, where neither this complete-split nor its answer is lost, and no cancel of it was accepted since: the host heard "
               "in it just what the translator of its hub and port had for the endpoint as the microframe began. Where that is data with the queue "
               "head's toggle for which it has room, or the acknowledgement of the bytes that its start-split sent, these bytes moved, and the queue "
               "head was written back so: so many fewer are left, the toggle is the other one, and a start-split comes next. In the last microframe "
               "of its C-mask, where its translator's pipeline has its entry with the whole start-split worked, what was heard is what the device "
               "said, never NYET.",
    "splits_go_on": "Within one frame, where the bus may be used in each microframe and no more than 4 microseconds of one went for complete-splits "
                    "made again: where a start-split of an interrupt endpoint below a hub was due as a microframe began, and no cancel of it was "
                    "accepted since, each later microframe of the frame that stands in its C-mask begins with a complete-split of it due, or the "
                    "host heard something other than NYET in one before; once the walk of the frames is over in such a microframe the host heard "
                    "that, or NYET in this one. And where the translator of its hub and port had its whole start-split once the walk of the frames "
                    "was over in that microframe, its hub hasn't heard last to clear a buffer or to reset a translator since, and neither a "
                    "complete-split of it nor the answer to one is lost: by the end of the walk of the frames in the last microframe of its C-mask "
                    "the host heard in a complete-split what the device said to the translator. So it is, whatever the translator had, where the "
                    "start-split isn't lost either and its hub heard no such request last in that microframe; "
                    "and where that is data with the toggle that its queue head came to as the start-split was due, for which it had room then, or the acknowledgement of what it sent, these bytes moved.",
    "sitds": "Once the walk of the frames is over in a microframe that isn't held, where no more than 4 microseconds went for complete-splits made "
             "again: the siTDs to which it came with a transaction to be made in this microframe are those that were written back after it, one for "
             "one: of an OUT a part, with which there is one fewer to send; of an IN its start-split, or a complete-split; parts and complete-splits "
             "mark the microframe as done. MDATA that an IN has room for is taken, and it goes on; such DATA0 is taken and ends it without an error "
             "bit; NYET, but at the last, leaves it.",
    "sitds_at_begin": "Once the walk of the frames is over in such a microframe: each siTD to which the links of its frame led as the microframe "
                      "began, and of which a transaction was to come in this microframe by its words then, had that transaction and was written "
                      "back after it, unless a cancel of its endpoint was accepted since; and so did that of a cancelled endpoint to which they "
                      "lead at each moment of the microframe nevertheless.",
    "goes_on": "At each moment: a bulk or interrupt endpoint that goes on, whose queue head isn't halted, and which has a transfer that is stored and of which a qTD is still active, has a queue head whose overlay is active or goes on to an "
            "active qTD; and so has its copy in the hand of either walk before its transaction. So no such queue head is passed for want of work.",
    "streams": "Whatever a script opens and cancels: at each moment, and after the run, the bytes told of each bulk and interrupt IN endpoint at high speed that was opened begin its stream, each once and in order; those told of each such OUT "
                    "endpoint begin what its device took, and these begin what was put to it. No line follows its end, and nothing is pending then. In mid-run they are compared with all puts "
                    "that weren't refused so far; after the run with all of the script that weren't. The same holds of each bulk and interrupt OUT endpoint at low or full speed that is behind a port of a hub of the script, whatever "
                    "is asked of the hub; but its device may take more behind the line that tells its end. Of each such IN endpoint there the bytes told begin its stream, no line follows its end, and nothing is pending then, at each "
                    "moment before which its hub never heard as its last request that it clears a buffer (CLEAR_TT_BUFFER) or resets a translator (RESET_TT), and after each run in which it never did; and throughout each script none of whose "
                    "`control` lines to that hub is such a request.",
    "pipes": "At each moment, of each bulk and interrupt IN endpoint at high speed that was opened, isn't given back and isn't unlinked, while no interrupt endpoint is being opened: its device knows the first packets of its stream to be "
             "accepted, and has the others still to send; the host accepted these packets, or one more, whose acknowledgement the device didn't hear; the toggle of the device, and that of the host, which words tell, or the copy in hand of a "
             "transaction that isn't written back, are the parities of these numbers; and the bytes told of the endpoint begin the packets that the host accepted. "
             "Of each such OUT endpoint: its device took the bytes that the host counts as moved, and both have one toggle, or it took the packet, too, that memory holds as the host's next, and has the other toggle; or, where the queue head is halted, "
             "it may be further, with the other toggle, and by which bytes isn't said. The bytes told begin those moved, and what was taken begins what was put.",
    "ends": "Whatever a script opens: at each moment, and after the run, no line follows the one that tells the end of a bulk, interrupt or isochronous endpoint, and nothing of it is pending then.",
    "misses": "At each moment each line that tells a missed microframe is of an endpoint at low or full speed, whatever a script loses, holds and asks.",
    "errors": "Where no line of a script loses or damages a packet between the controller and a hub or a device at high speed, and no interrupt endpoint at high speed ever answers with NYET: at each moment each line "
              "that tells `halt error` is of an endpoint at low or full speed, whatever is lost below translators, and whatever the script holds, cancels and asks of hubs. Where, besides, none of its `control` lines to a hub of the "
              "script is a request that clears a buffer (CLEAR_TT_BUFFER) or resets a translator (RESET_TT), it is of an interrupt endpoint there: no bulk or control endpoint uses up its errors, whatever is lost below translators, and "
              "whatever the script answers with NAK, holds, cancels and asks of hubs besides.",
    "requests": "Whatever a script opens: at each moment a device that is no hub acted on each request of its control endpoint at high speed at most once, and on nothing but its setup bytes; "
                "a request that is told done was acted on exactly once, with all its data, and one that halted tells a beginning of them, in the order in which they were asked, also of an endpoint that was cancelled; "
                "but of the line of the cancel itself nothing is said. After the run its requests are all that the script has for the endpoint.",
    "answers": "At each command of a script: it is refused for the first cause that stands, in the order busy, no endpoint, closed, already open, too long, no placement, no blocks (with the run of blocks that isn't there, and the longest that is), "
               "one line tells this and nothing else changes; or none of them stands, and it is accepted, without a line. Then it adds what it asks for, and changes nothing else of endpoints and transfers: one endpoint of its description; one transfer of its endpoint, whose qTDs have just its bytes, none of them moved; "
               "so many isochronous transfers of its endpoint's slots; or its endpoint is cancelled, and ends if it hadn't. That an endpoint is closed is what the driver knows of its end: that a line told it isn't said, nor what memory holds for the transfer.",
    "hears": "At each event of the controller that asks something of the bus, the reply is that of the one endpoint that the ask is for, where it can be reached: no hold, each port on its path enabled, and no line of the script loses the packets that it takes; else the controller hears "
             "what is left without them. So it is below a translator, and of what reaches the device, and is acknowledged, too; and where nothing is asked the bus stays as it is. Endpoint 0 of each hub stands on the bus, and each endpoint of the script's lines, of its device; the lines on lost packets are the script's. This is said ask by ask; the asks of a translator are those of its own pipeline.",
    "works": "Where the driver's next event is Rest, no command is unfinished; each cancelled endpoint is given back; and of each that hasn't ended all that it was asked for has its line, and its blocks are given back. And while no command is unfinished, it comes to that: what can be stored, unlinked or given back now is, and a transfer without a line of an endpoint that hasn't ended is read, by this event or by the next. Which endpoint's is read isn't said, nor that the doorbell is rung.",
    "lines": "Each line that an event of the driver writes has its reason in the words that it reads: a token that is done, or halted by a missed complete-split, babble, errors or STALL, in this order; the STALL of a request before; the slots of an isochronous descriptor, none of which is active any more; or the cancel. It tells "
             "as many bytes as were moved: of each qTD its length less what its token left, at a cancel less what the active overlay leaves. The controller writes none. What a transfer was accepted for stays; what was moved in a qTD is noted as its token is read, and a token, or a descriptor, is left unread only while it is active. That a token has its STALL, its errors or its missed complete-split of an answer on the bus is the machine's own.",
    "pending": "Each line that an event of the driver writes leaves one transfer less of its endpoint without a line, and the line of a cancel, with which its endpoint is given back, leaves none; of each other endpoint as many stay. After the run `pending` is told just of each endpoint that hasn't ended and has transfers without a line, with their number. At each moment, of each endpoint of which no line tells a cancel, the transfers that were accepted are as many as have a line and as have none yet.",
    "words": "The status is `Words` exactly where the words have none of the forms.",
    "untouched": "Then nothing is read and nothing is written.",
    "unread": "The form `load` reads nothing.",
    "load": "`load` ends with `Ok` and the line that counts the report of the whole run of the script that is drawn from its number, with `WriteFault` and a front part of that line, or with `Memory` and nothing; it never refuses.",
    "places": "At no moment of the run of the script that is drawn for `load` is an open refused for want of a placement: its periodic endpoints keep every budget wherever they are placed.",
    "left": "What a form leaves unread in its source: nothing, or what stands behind the 1,048,601st byte.",
    "nothing": "Where the input couldn't be read or memory was wanting, nothing is written.",
    "read": "The status is `ReadFault` exactly where a read failed.",
    "write": "The status is `WriteFault` exactly where a write failed.",
    "finishes": "Where the words have a form, the input is one that it reads, and neither count of faults rose: the status is `Ok` and the whole output is written, or it is `Memory` and nothing is. `load` reads nothing, and the script that it draws is always sound.",
}
# The clauses that join others: of these the page lists what no other clause reaches.
JOINS = {"headline"}
INTRODUCTION = """# The theorem

Written by docs/theorem.py; the checks of `.ci/run` compare it with the sources.

The theorem of this repository is the contract of one function, `ehci` in crates/ehci_cli/src/program.rt, which the program `ehci` calls with its words, standard input and standard output. A clause holds for every input, every list of lost packets and every order of steps.

Most clauses speak of **the table machine** over the script that the input spells, and for `load` over the one that is drawn from its number: contents of driver, controller, registers, memory, hubs and devices, and the row that each event is. Clause `output` ties it to what is printed: the report is that of the machine's run. Clauses of `OfEachPlainScript` speak of scripts that clear no halt, by the run of a driver without jobs; clause `plain` says that this is their run. Each clause below is given in its own words, then in English, then come the definitions beside the machine that it reaches, which one has to read to know what it says. "At each moment" is: before the run, and after each of its events and commands.

The calls below keep the tables as their contracts: `World::offer`, `World::event` and `World::run` of bus_world say which row each command and event is, and of what holds along a run the budgets. The laws of a run are clauses of `ehci` alone: what stands above them waits for the proofs of all, and no part of the machine has to. A program of one's own over `World` gets them by the same laws: each takes a script, and speaks of the moments of its run.

Where a clause's English says less than its name, the definitions count. [NOT_PROVED.md](NOT_PROVED.md) has what no clause says. **Lent, Kept, Free**: a block of memory that the controller may touch too, that the driver has alone, that nobody has. A **run** of blocks is some blocks in a row.
"""


def clauses():
    """Name, text and directly named definitions of each clause of the top call."""
    text = CALL.read_text()
    imports = {}
    for row in re.finditer(r"ghost use (Rattle\.[\w.]+)\.\{(.*)\};", text):
        for item in row[2].split(","):
            of, _, known_as = item.strip().partition(" as ")
            imports[known_as or of] = (row[1], of)
    contract = text.split("pub fn ehci<")[1].split("\n{")[0]
    for row in re.finditer(r"ensures (\w+) \{ (.*?) \}(?=\n    ensures|$)", contract, re.S):
        said = " ".join(row[2].split())
        yield row[1], said, [imports[it] for it in NAME.findall(said) if it in imports]


def is_beside(definition):
    """Whether a definition stands beside the machine: in a crate of claims or laws, or in the top call's own."""
    return kind(definition.crate) != "" or definition.crate == "ehci_cli"


def lines(found):
    return sum(len(it.text) for it in found)


def told(definitions):
    """A list item a file: each name with its line, and its words where its file's head has them."""
    by_file = collections.defaultdict(list)
    for it in definitions:
        by_file[it.path].append(it)
    for path in sorted(by_file):
        yield f"- `{path.relative_to(CRATES)}`: " + ", ".join(f"{it.name}:{it.line}" for it in sorted(by_file[path], key=lambda it: it.line))


def reached_by(known, roots):
    return reached(known, [known[m].definitions[n] for m, n in roots if m in known and n in known[m].definitions])


def others(known, found, name):
    """What the other clauses reach."""
    return {id(it) for other, (_, roots) in found.items() if other != name for it in reached_by(known, roots)}


def page(known):
    out, everything = [INTRODUCTION], {}
    found = {name: (text, roots) for name, text, roots in clauses()}
    if set(found) != set(SAYS):
        sys.exit(f"docs/theorem.py has a sentence too many or too few: {sorted(set(found) ^ set(SAYS))}")
    for name, says in SAYS.items():
        text, roots = found[name]
        roots = [known[m].definitions[n] for m, n in roots if m in known and n in known[m].definitions]
        all_of_it = reached(known, roots)
        everything |= {id(it): it for it in all_of_it}
        mine = [it for it in all_of_it if is_beside(it)]
        out.append(f"## `{name}`\n\n    {text}\n\n{says}\n")
        first = [it for it in roots if it.words() and "OfEach" not in it.name]
        out += [f"`{it.name}` ({it.place}): {it.words()}\n" for it in first]
        if name in JOINS:
            elsewhere = others(known, found, name)
            mine = [it for it in mine if id(it) not in elsewhere]
            out.append(f"It joins clauses below, and has {len(mine)} definitions of its own, {lines(mine)} lines:\n")
            out += [*told(mine), ""]
        elif mine:
            out.append(f"{len(mine)} definitions beside the machine, {lines(mine)} lines:\n")
            out += [*told(mine), ""]
    return "\n".join([*out, *machine(known, list(everything.values()))])


def machine(known, everything):
    rest = collections.defaultdict(list)
    for it in everything:
        if not is_beside(it):
            rest[it.crate].append(it)
    yield "## The machine\n\nWhat all clauses speak of, by crate: the definitions that they reach. [RULES.md](RULES.md) finds each by the section of its standard.\n"
    yield "| crate | definitions | lines |\n|---|---|---|"
    for crate in sorted(rest, key=lambda it: (-lines(rest[it]), it)):
        yield f"| {crate} | {len(rest[crate])} | {lines(rest[crate])} |"
    beside = [it for it in everything if is_beside(it)]
    of_all = lines([d for m in known.values() for d in m.definitions.values()])
    machine_lines = lines([it for its in rest.values() for it in its])
    yield (f"\nThe machine has {machine_lines:,} lines that clauses reach, and beside it stand {lines(beside):,} in {len({it.path for it in beside})} files: "
           f"{lines(everything):,} of the {of_all:,} lines of definitions are what one has to believe. All others serve proofs, or speak of what no clause does.\n")


def numbers(known):
    for name, _, roots in clauses():
        all_of_it = reached(known, [known[m].definitions[n] for m, n in roots if m in known and n in known[m].definitions])
        mine = [it for it in all_of_it if is_beside(it)]
        print(f"{name:12} {len(all_of_it):5} definitions, {lines(all_of_it):6} lines; beside the machine {len(mine):4} in {len({it.path for it in mine}):3} files "
              f"of {len({it.crate for it in mine}):2} crates, {lines(mine):5} lines")


def main():
    known = modules()
    if "--numbers" in sys.argv[1:]:
        numbers(known)
        return 0
    return written(TOP / "docs/THEOREM.md", page(known), "--check" in sys.argv[1:], "docs/theorem.py")


if __name__ == "__main__":
    sys.exit(main())
