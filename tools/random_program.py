"""Random texts of the language that are whole programs, are defined on every input, and end.

`program(random)` gives one. Each variable is set before it is read, signed operands are masked before they are added,
multiplied or divided, divisors are odd, counts of shifts and indices are masked, loops count down, and functions call
those before them alone, but for one that calls itself a few times.
"""

WIDTHS = {"int": 32, "unsigned int": 32, "long int": 64, "long unsigned int": 64}
SUFFIXES = {"int": "", "unsigned int": "u", "long int": "l", "long unsigned int": "ul"}
SIGNED = ("int", "long int")
ELEMENTS = ("unsigned char",) + tuple(WIDTHS)


def literal(random, ty, low=None, high=None):
    """A literal of the type; of any size, among them the least and the greatest, unless a range is given."""
    width = WIDTHS[ty]
    least, most = (-(2 ** (width - 1)), 2 ** (width - 1) - 1) if ty in SIGNED else (0, 2**width - 1)
    if low is not None:
        number = random.randint(low, high)
    else:
        edges = [n for n in (least, most, 0, 1, -1, 2047, 2048, -2048, -2049, 2**31 - 1, 2**31) if least <= n <= most]
        number = random.choice(edges + [random.randint(least, most), random.randint(max(least, -999), 999)])
    return "%d%s" % (number, SUFFIXES[ty])


class Function:
    """The text of a function as it is made: its variables by type, its lines, and its labels."""

    def __init__(self, random, name, result, parameters, world):
        self.random, self.name, self.result, self.world = random, name, result, world
        self.parameters, self.lines, self.labels, self.free = parameters, [], 0, {}
        self.locals, self.structs = [], [p for p in parameters if p[0].startswith("struct")]
        self.scalars = {ty: [p[1] for p in parameters if p[0] == ty] for ty in WIDTHS}
        for ty in WIDTHS:
            for _ in range(3):
                self.local(ty, ty[0] + ty.split()[-2][0] + str(len(self.locals)) if " " in ty else "i%d" % len(self.locals))
        for tag, fields in world["structs"]:
            self.struct(tag, fields)
        for struct in self.structs:
            for ty, field in dict(world["structs"])[struct[0].split()[1]]:
                self.scalars[ty].append("%s.%s" % (struct[1], field))

    def local(self, ty, name):
        self.locals.append((ty, name))
        self.scalars[ty].append(name)
        self.lines.append("%s = %s;" % (name, literal(self.random, ty)))

    def struct(self, tag, fields):
        name = "s_%s_%d" % (tag, len(self.locals))
        self.locals.append(("struct " + tag, name))
        self.structs.append(("struct " + tag, name))
        for ty, field in fields:
            self.lines.append("%s.%s = %s;" % (name, field, literal(self.random, ty)))

    def label(self):
        self.labels += 1
        return "L%d" % self.labels

    def place(self, ty):
        """A component that may be assigned."""
        return self.random.choice([x for x in self.scalars[ty] if x not in self.free])

    def operand(self, ty):
        return self.random.choice(self.scalars[ty]) if self.random.random() < 0.8 else literal(self.random, ty)

    def masked(self, ty, bits):
        """A component of the type from 0 to 2^bits - 1."""
        name = self.place(ty)
        self.lines.append("%s = %s & %s;" % (name, self.operand(ty), literal(self.random, ty, 2**bits - 1, 2**bits - 1)))
        return name

    def narrow(self, ty):
        """An operand with which signed arithmetic stays in range."""
        if ty in SIGNED:
            return self.masked(ty, 14 if ty == "int" else 30)
        return self.operand(ty)

    # ---- statements

    def arithmetic(self):
        ty = self.random.choice(tuple(WIDTHS))
        op = self.random.choice(("+", "-", "*"))
        left, right = self.narrow(ty), self.narrow(ty)
        self.lines.append("%s = %s %s %s;" % (self.place(ty), left, op, right))

    def bits(self):
        ty = self.random.choice(tuple(WIDTHS))
        self.lines.append("%s = %s %s %s;" % (self.place(ty), self.operand(ty), self.random.choice("&|^"), self.operand(ty)))

    def division(self):
        ty = self.random.choice(tuple(WIDTHS))
        divisor = self.place(ty)
        self.lines.append("%s = %s | %s;" % (divisor, self.narrow(ty), literal(self.random, ty, 1, 1)))
        dividend = self.narrow(ty)
        if dividend == divisor:
            dividend = literal(self.random, ty, 7, 7)
            self.lines.append("%s = %s | %s;" % (divisor, divisor, literal(self.random, ty, 1, 1)))
        self.lines.append("%s = %s %s %s;" % (self.place(ty), dividend, self.random.choice("/%"), divisor))

    def shift(self):
        ty, count = self.random.choice(tuple(WIDTHS)), self.random.choice(tuple(WIDTHS))
        by = self.masked(count, 5)
        self.lines.append("%s = %s %s %s;" % (self.place(ty), self.operand(ty), self.random.choice(("<<", ">>")), by))

    def unary(self):
        ty = self.random.choice(tuple(WIDTHS))
        if self.random.random() < 0.5:
            self.lines.append("%s = ~%s;" % (self.place(ty), self.random.choice(self.scalars[ty])))
        else:
            value = self.masked(ty, 20) if ty in SIGNED else self.random.choice(self.scalars[ty])
            self.lines.append("%s = -%s;" % (self.place(ty), value))

    def conversion(self):
        ty, other = self.random.choice(tuple(WIDTHS)), self.random.choice(tuple(WIDTHS))
        self.lines.append("%s = (%s) %s;" % (self.place(ty), ty, self.operand(other)))

    def comparison(self):
        ty = self.random.choice(tuple(WIDTHS))
        op = self.random.choice(("==", "!=", "<", "<=", ">", ">="))
        self.lines.append("%s = %s %s %s;" % (self.place("int"), self.operand(ty), op, self.operand(ty)))

    def element(self):
        name, ty, length = self.random.choice(self.world["arrays"])
        at = self.masked(self.random.choice(tuple(WIDTHS)), length.bit_length() - 1)
        value = "int" if ty == "unsigned char" else ty
        if self.random.random() < 0.5:
            self.lines.append("%s = %s[%s];" % (self.place(value), name, at))
        else:
            self.lines.append("%s[%s] = %s;" % (name, at, self.operand(value)))

    def whole(self):
        tag = self.random.choice(self.world["structs"])[0]
        these = [s[1] for s in self.structs if s[0] == "struct " + tag]
        self.lines.append("%s = %s;" % (self.random.choice(these), self.random.choice(these)))

    def writes(self):
        self.lines.append("__builtin_putchar (%s);" % self.operand("int"))

    def reads(self):
        self.lines.append("%s = __builtin_getchar ();" % self.place("int"))

    def exits(self):
        if self.random.random() < 0.1:
            self.lines.append("__builtin_exit (%s);" % self.operand("int"))

    def call(self):
        if not self.world["functions"]:
            return self.bits()
        name, result, parameters = self.random.choice(self.world["functions"])
        arguments = []
        for ty, _ in parameters:
            if ty.startswith("struct"):
                arguments.append(self.random.choice([s[1] for s in self.structs if s[0] == ty]))
            else:
                arguments.append(self.operand(ty))
        call = "%s (%s);" % (name, ", ".join(arguments))
        if result != "void" and self.random.random() < 0.8:
            call = "%s = %s" % (self.place(result), call)
        self.lines.append(call)

    def choice(self, depth):
        ty = self.random.choice(tuple(WIDTHS))
        op = self.random.choice(("==", "!=", "<", "<=", ">", ">="))
        met, missed, after = self.label(), self.label(), self.label()
        self.lines.append("if (%s %s %s) goto %s; else goto %s;" % (self.operand(ty), op, self.operand(ty), met, missed))
        self.lines.append(met + ":")
        self.block(depth - 1, 3)
        self.lines.append("goto %s;" % after)
        self.lines.append(missed + ":")
        self.block(depth - 1, 3)
        self.lines.append(after + ":")

    def switch(self, depth):
        ty = self.random.choice(tuple(WIDTHS))
        on, after = self.masked(ty, 2), self.label()
        numbers = sorted(self.random.sample(range(4), self.random.randint(0, 3)))
        labels = [self.label() for _ in range(len(numbers) + 1)]
        cases = "".join(", case %s: %s" % (literal(self.random, ty, n, n), l) for n, l in zip(numbers, labels[1:]))
        self.lines.append("switch (%s) <default: %s%s>;" % (on, labels[0], cases))
        for label in labels:
            self.lines.append(label + ":")
            self.block(depth - 1, 2)
            self.lines.append("goto %s;" % after)
        self.lines.append(after + ":")

    def loop(self, depth):
        ty = self.random.choice(tuple(WIDTHS))
        counter = "n%d" % self.labels
        self.locals.append((ty, counter))
        again, done, more = self.label(), self.label(), self.label()
        self.lines.append("%s = %s;" % (counter, literal(self.random, ty, 0, 5)))
        self.lines.append(again + ":")
        self.lines.append("if (%s == %s) goto %s; else goto %s;" % (counter, literal(self.random, ty, 0, 0), done, more))
        self.lines.append(more + ":")
        self.block(depth - 1, 3)
        self.lines.append("%s = %s - %s;" % (counter, counter, literal(self.random, ty, 1, 1)))
        self.lines.append("goto %s;" % again)
        self.lines.append(done + ":")

    def block(self, depth, most):
        flat = (self.arithmetic, self.bits, self.division, self.shift, self.unary, self.conversion, self.comparison,
                self.element, self.whole, self.writes, self.reads, self.call, self.exits)
        nested = (self.choice, self.switch, self.loop)
        for _ in range(self.random.randint(1, most)):
            if depth > 0 and self.random.random() < 0.3:
                self.random.choice(nested)(depth)
            else:
                self.random.choice(flat)()

    def text(self, linkage=""):
        heads = ["%s %s" % p for p in self.parameters]
        lines = ["%s%s %s (%s)" % (linkage, self.result, self.name, ", ".join(heads)), "{"]
        lines += ["  %s %s;" % v for v in self.locals] + ["  " + line for line in self.lines]
        end = "return;" if self.result == "void" else "return %s;" % self.operand(self.result)
        return "\n".join(lines + ["  " + end, "}"])


def structs(random):
    return [("p%d" % n, [(random.choice(tuple(WIDTHS)), "f%d" % k) for k in range(random.randint(1, 8))])
            for n in range(random.randint(1, 2))]


def array(random, number):
    """An array of 2^k elements, with some initial values, and its text."""
    ty, length = random.choice(ELEMENTS), 2 ** random.randint(0, 6)
    value = ty if ty != "unsigned char" else "int"
    count = random.randint(0, length)
    numbers = ["%d" % random.randint(0, 255) if ty == "unsigned char" else literal(random, value).rstrip("ul") for _ in range(count)]
    given = " = {%s}" % ", ".join(numbers) if numbers else ""
    linkage = random.choice(("", "static ", "weak "))
    return ("A%d" % number, ty, length), "%s%s A%d[%d]%s;" % (linkage, ty, number, length, given)


def recursive():
    return "\n".join((
        "static unsigned int again (unsigned int n, unsigned int x)", "{", "  unsigned int r;",
        "  if (n == 0u) goto done; else goto more;", "more:", "  n = n - 1u;", "  x = x * 31u;", "  r = again (n, x);",
        "  r = r ^ n;", "  return r;", "done:", "  return x;", "}"))


def program(random):
    world = {"structs": structs(random), "arrays": [], "functions": []}
    texts = ["struct %s { %s };" % (tag, " ".join("%s %s;" % field for field in fields)) for tag, fields in world["structs"]]
    for number in range(random.randint(1, 4)):
        known, text = array(random, number)
        world["arrays"].append(known)
        texts.append(text)
    texts.append(recursive())
    types = tuple(WIDTHS) + tuple("struct " + tag for tag, _ in world["structs"])
    for number in range(random.randint(0, 4)):
        parameters = [(random.choice(types), "a%d" % k) for k in range(random.randint(0, 6))]
        made = Function(random, "f%d" % number, random.choice(("void",) + tuple(WIDTHS)), parameters, world)
        made.block(2, 8)
        texts.append(made.text(random.choice(("", "static ", "weak "))))
        world["functions"].append((made.name, made.result, parameters))
    main = Function(random, "main", "int", [], world)
    main.lines.append("ui_depth = again (%du, 7u);" % random.randint(0, 40))
    main.locals.append(("unsigned int", "ui_depth"))
    main.scalars["unsigned int"].append("ui_depth")
    main.block(3, 25)
    for ty in WIDTHS:
        shown = main.place("int")
        main.lines.append("%s = (int) %s;" % (shown, main.operand(ty)))
        main.lines.append("__builtin_putchar (%s);" % shown)
    texts.append(main.text())
    return "\n\n".join(texts) + "\n"
