"""Questions of the cases that the driver asks again while memory is refused, and what has to come of them.

From what crates/case_driver reads and prints, the first question of each kind over the tables is taken, and the driver is
given it once more as `! QUESTION` (docs/CASES.md). Where a request was refused, the answer has to be out of memory in the
place that the pattern's error has, nothing may have changed but at most one spent number, and the same question has to
be answered then as it is answered without a refusal.

Peers act in some runs, and a peer whose step finds no memory skips it. Then a call may be answered otherwise. What the
node that calls holds may not change but by a call that is granted.
"""
import collections
import re

# A question with the commands before it, its kind, its storage, and its stored answer.
Picked = collections.namedtuple("Picked", "storage kind before question answer")
# What a try with a refused request came to: its mode and number, how many requests were refused, the answer, what was
# left, the second answer, and what was left then.
Try = collections.namedtuple("Try", "mode number refused answer left again left_again")

PATTERNS = {"event": "Event", "pubsub": "PublishSubscribe", "rr": "RequestResponse"}
# Accesses that may say that there was no memory, and those that need none.
ASKING = ("fetch", "make_tag", "lock", "make_segment", "publish", "open_segment")
SPARING = ("exists", "counts", "remove_tag", "remove_segment", "remove_description", "release", "close")
VALUES = ("decode", "encode", "hash", "define", "require", "type")
# The tables of vectors and of chunks. Questions of values are over one of them too.
STORAGES = ("table", "large")
# What the driver says where its own request was refused, before or after what is asked.
OUTSIDE = "out of memory"
MODES = ("alone", "later")
# What is counted of the tries of a question.
COUNTED = ("inside", "outside", "spent", "skipped")


def lines(path):
    """The lines of a file."""
    return path.read_bytes().decode("utf-8", "surrogateescape").split("\n")[:-1]


def runs(driver):
    """Each run over a table of which no access is refused, as its commands, each with its answer, or with nothing."""
    answers, found = iter(lines(driver / "stdout")), []
    for line in lines(driver / "stdin"):
        if re.match("(over|program) ", line):
            found.append([])
        answer = next(answers) if line.startswith("? ") else None
        while line == "? serve" and not answer.startswith("status "):
            answer = next(answers)
        found[-1].append((line, answer))
    return [run for run in found if re.fullmatch(rf"over ({'|'.join(STORAGES)})( counter \d+)?", run[0][0])]


def terms_of(question):
    """Which terms of a call ask for memory: attributes, and types."""
    return re.search(" (attribute|require_key)=", question) is not None, re.search("(payload|header)=", question) is not None


def grown(storage, standing):
    """What a storage is kept in has grown so far behind so many calls: a vector doubles. A large table is asked at each."""
    return min(standing, 16) if storage == "large" else min(standing, 8).bit_length()


def kind_of(question, answer, size):
    """The kind of a question and of its answer. Of a granted call the size of what stands is part of it."""
    words = question.split()
    said = re.sub(r"\d+", "N", answer) if words[0] in (*PATTERNS, *ASKING, *SPARING, "type") else ""
    said = re.match(r"\w+ at|", answer)[0] if words[0] == "define" else said
    said = str(answer == "Malformed") + (answer.split() or [""])[0] if words[0] == "decode" else said
    if words[0] in PATTERNS:
        return f"{words[0]} {words[1]}", said, *terms_of(question), size if answer.startswith("ok") else 0
    return words[0], re.sub("N \\w+", "N D", said)


def has_peers(given):
    """Whether peers act in a run of these commands."""
    return any(line.startswith("peer ") for line in given)


def picked(driver):
    """The first question of each kind over each storage, rather of a run without peers."""
    found = {}
    for run in sorted(runs(driver), key=lambda run: has_peers(line for line, _ in run)):
        storage, standing = run[0][0].split()[1], 0
        for at, (line, answer) in enumerate(run):
            word = line.split()[1] if line.startswith("? ") else ""
            if word in (*PATTERNS, *ASKING, *SPARING, *VALUES, "left"):
                kind = kind_of(line[2:], answer, grown(storage, standing))
                place = "values" if word in VALUES else storage
                before = [command for command, _ in run[:at]]
                found.setdefault((place, kind), Picked(place, kind[0], before, line[2:], answer))
                standing += word in PATTERNS and answer.startswith("ok")
    return list(found.values())


def commands(one):
    """What the driver reads for a question: once as it is, between what is left, and then while memory is refused."""
    return [*one.before, "? left", f"? {one.question}", "? left", *one.before, f"! {one.question}"]


def tries(printed):
    """The tries of a question, in each mode up to the first one of which nothing was refused."""
    for mode in MODES:
        refused = ""
        while refused != "none":
            head, left, again, left_again = (next(printed) for _ in range(4))
            found = re.match(r"(alone|later) (\d+) (none|one|more): ?", head)
            if not found or found[1] != mode:
                raise ValueError(f"no try of {mode}: {head}")
            refused = found[3]
            yield Try(mode, int(found[2]), refused, head[found.end() :], left, again, left_again)


def without_memory(question):
    """What a question may be answered that finds no memory, and whether a number may be spent then."""
    words = question.split()
    if words[0] in ASKING:
        return {"OutOfMemory": False}
    if words[0] not in PATTERNS:
        return {}
    name = PATTERNS[words[0]]
    if words[1] == "open_or_create":
        error = f"{name}OpenOrCreateError::{name}"
        return {f"{error}OpenError(OutOfMemory)": False, f"{error}CreateError(OutOfMemory)": True}
    return {f"{name}{words[1].capitalize()}Error::OutOfMemory": words[1] == "create"}


def counter_of(left):
    """The counter in what is left, if there is one."""
    found = re.search(r"counter (\d+)", left)
    return int(found[1]) if found else 0


def later(text, number, spent):
    """The same after so many spent numbers: the next number, where it stands, is so much higher."""
    form = rf"\b(number=|locked |published |segment |^){number}\b"
    text = re.sub(form, lambda found: f"{found[1]}{number + spent}", text)
    return re.sub(r"counter (\d+)", lambda found: f"counter {int(found[1]) + spent}", text)


def without_name(left, before):
    """What is left, without the service's name where only one was known before: a call for another makes both named."""
    return left if re.match("(event|pubsub|rr) ", before) else re.sub("^(event|pubsub|rr) [^:]*: ", "", left)


def held(node, left):
    """What a node holds of what is left."""
    return re.findall(rf"\bnode {node}\b[^,;]*", left)


class Judge:
    """Compares the tries of a question with its answer, and counts."""

    def __init__(self, one, before, answer, left):
        self.one, self.before, self.answer, self.left = one, before, answer, left
        self.inside = self.outside = self.spent = self.skipped = 0
        self.wrong = [] if answer == one.answer else [f"answered {answer}, and not {one.answer}"]

    def check(self, tried):
        """Takes a try."""
        if tried.refused == "none":
            found, wanted = (tried.answer, tried.left), (self.answer, self.left)
        elif has_peers(self.one.before):
            found, wanted = self.beside_peers(tried)
        else:
            found, wanted = self.refused(tried)
        if found != wanted:
            order = f"{tried.mode} {tried.number}, {tried.refused} refused"
            self.wrong.append(f"{order}: {found}, wanted {wanted}")

    def refused(self, tried):
        """What came of a try with a refused request, and what has to come of it."""
        number = counter_of(self.before)
        spent = counter_of(tried.left) - number
        may_spend = without_memory(self.one.question).get(tried.answer)
        is_spent = spent == 0 or spent == 1 and may_spend
        self.spent += spent
        left = without_name(tried.left, self.before)
        found = (self.told(tried), tried.refused, left, tried.again, tried.left_again)
        wanted = (tried.answer, "one", re.sub(r"counter \d+", f"counter {number + (spent if is_spent else 0)}", self.before))
        return found, (*wanted, later(self.answer, number, spent), later(self.left, number, spent))

    def told(self, tried):
        """The answer, marked if it doesn't say that there was no memory."""
        is_inside = tried.answer in without_memory(self.one.question) or tried.answer.startswith("OutOfMemory at ")
        self.inside += is_inside
        self.outside += tried.answer == OUTSIDE
        return tried.answer if is_inside or tried.answer == OUTSIDE else f"not told: {tried.answer}"

    def beside_peers(self, tried):
        """The same where peers act. What is left of them is their own, and they act at other accesses of a second call."""
        node = self.one.question.split()[2]
        is_held = tried.answer.startswith("ok") or held(node, tried.left) == held(node, self.before)
        if "skipped" in tried.left:
            self.skipped += 1
            return is_held, True
        return (self.told(tried), tried.refused, is_held), (tried.answer, "one", True)

    def needs(self):
        """What is wrong with how many requests were refused in all."""
        word = self.one.question.split()[0]
        if self.inside and self.answer == "EventOpenError::DoesNotExist":
            yield f"{self.inside} requests where none is needed"
        is_kept = word in ("fetch", "publish") and self.answer[0].isdigit()
        is_granted = is_kept or word in PATTERNS and self.answer.startswith("ok")
        is_made = word in VALUES and not re.match("(Key|Value)Length at 1$|a type's (name|alignment) ", self.answer)
        if is_granted and not self.inside or is_made and not self.inside + self.outside:
            yield "no request was refused"


class Asked:
    """All questions that are asked so: what the driver reads, and what comes of what it prints."""

    def __init__(self, driver):
        self.picked = picked(driver)
        self.lines = [line for one in self.picked for line in commands(one)]
        self.counts, self.told = [], ""

    def judge(self, printed):
        """What is wrong with what the driver printed. Counts the refused requests by storage and kind of question."""
        printed, sums = iter(printed), collections.Counter()
        for one in self.picked:
            try:
                for _ in (line for line in one.before if line.startswith("? ")):
                    next(printed)
                judge = Judge(one, next(printed), next(printed), next(printed))
                for tried in tries(printed):
                    judge.check(tried)
            except (StopIteration, RuntimeError, ValueError) as error:
                yield f"no end at {one.question}: {error}"
                return
            for fault in [*judge.wrong, *judge.needs()]:
                yield f"over {one.storage}, {one.question}: {fault}"
            for what in COUNTED:
                sums[one.storage, one.kind, what] += getattr(judge, what)
            sums[one.storage, one.kind, "questions"] += 1
        yield from (f"one line more: {line}" for line in printed)
        self.tell(sums)

    def tell(self, sums):
        """Writes the counts in words."""
        for storage, kind in dict.fromkeys(key[:2] for key in sums):
            questions, inside, outside, spent, skipped = (sums[storage, kind, what] for what in ("questions", *COUNTED))
            numbers = f", {spent} numbers spent" if spent else ""
            steps = f", {skipped} of peers" if skipped else ""
            refused = f"{inside} refused, {outside} before or after it{steps}{numbers}"
            self.counts.append(f"{storage}: {kind}: {questions} asked, {refused}")
        total = [sum(count for key, count in sums.items() if key[2] == what) for what in ("questions", "inside", "outside")]
        self.told = "%d questions, %d requests refused, %d before or after what is asked" % tuple(total)
