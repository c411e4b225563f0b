"""The flag of a call that is at work: a global of a module that isn't the stack's pointer.

Each call of the library raises it first, and lowers it at its end, and where it is up a call is refused. No call is made within
another, so it is down wherever it is read, and C has none. That is so is seen here, of each call: the flag is read and set one
after the other, on no way that may be left out or gone twice."""

from .wasm import Refusal


class Flag:
    """What functions do with it."""

    def __init__(self, program):
        self.program, self.known = program, {}

    def check(self, number):
        """A call: of that function, which is exported."""
        if self.after(number, False):
            raise Refusal("a call leaves a flag up")

    def after(self, number, is_up):
        """Whether it is up after a function, if it was so before."""
        for event in self.events(number):
            if event == "read" and is_up:
                raise Refusal("a flag is read where it may be up")
            if isinstance(event, int):
                is_up = self.after(event, is_up)
            elif event != "read":
                is_up = event == "raised"
        return is_up

    def events(self, number):
        """What a function does with it, in order: "read", "raised", "lowered", or a call of a function that does something."""
        if number not in self.known:
            self.known[number] = []
            self.known[number] = list(self.found(self.program.codes[number]))
        return self.known[number]

    def found(self, code):
        left = [False] # of each block around: whether some branch leads out of it, or back
        for place, it in enumerate(code):
            name, event = it.opcode.name, self.event(code, place)
            if event is not None and any(left):
                raise Refusal("a flag is touched on some ways alone")
            if event is not None:
                yield event
            if name in ("block", "loop"):
                left.append(name == "loop")
            elif name == "end" and len(left) > 1:
                left.pop()
            elif name in ("br", "br_if", "br_table"):
                for depth in it.number if name == "br_table" else [it.number]:
                    left[-1 - depth] = True
            elif name == "return":
                left[0] = True

    def event(self, code, place):
        it = code[place]
        if it.opcode.name == "call":
            return it.number if self.events(it.number) else None
        if it.opcode.name not in ("global.get", "global.set") or self.program.is_stack_pointer(it.number):
            return None
        if it.number != self.program.flag:
            raise Refusal("a global is neither the stack's pointer nor a flag")
        before = code[place - 1] if place > 0 and code[place - 1].opcode.name == "i32.const" else None
        if it.opcode.name == "global.get":
            return "read"
        if before is None or before.number not in (0, 1):
            raise Refusal("a flag is set to something else than 0 or 1")
        return "raised" if before.number else "lowered"
