"""Which functions a program reaches, by imports and calls. A method that is called by its name alone counts for each type that has it
and that the program makes, so that what is told as not reached is not."""
import re

import sources

PATH = re.compile(r'(?<![\w.])([A-Za-z_]\w*(?:::[A-Za-z_]\w*)*)')
METHOD = re.compile(r'\.\s*([a-z_]\w*)\s*\(')
OF_STD = {'Model', 'Drop', 'Clone', 'Copy', 'Ord', 'PartialOrd', 'Eq', 'PartialEq', 'Debug', 'From', 'Iterator', 'Copying'}


def without_arguments_of_types(body):
    """The body without `::<..>`; what stands there is put behind it, since it names types too."""
    behind = []
    while (at := body.find('::<')) >= 0:
        end = sources.closing(body, at + 2, '<>')
        behind.append(body[at + 3:end - 1])
        body = body[:at] + body[end:]
    return ' '.join([body] + behind)


class Program:
    def __init__(self, crates):
        self.crates = crates
        self.stands_on = sources.crates()
        self.free, self.methods, self.by_name = {}, {}, {}
        self.words, self.holders = {}, {}
        for crate in crates.values():
            for module in crate.modules.values():
                for call in module.calls:
                    if call.owner:
                        self.methods.setdefault((call.crate, call.owner), []).append(call)
                        self.by_name.setdefault(call.name, []).append(call)
                    else:
                        self.free[call.crate, call.module, call.name] = call

    def resolve(self, crate, path, seen=0):
        """The crate, module and name that a path leads to, seen from this crate."""
        parts = path.split('::')
        if seen > 8:
            return None
        if parts[0] in ('crate', 'super'):
            parts = parts[1:]
            owner = crate
        elif parts[0] in self.crates:
            owner, parts = parts[0], parts[1:]
        else:
            return None
        if not parts:
            return None
        modules = self.crates[owner].modules
        lib = modules.get('lib') or modules.get('main')
        for size in range(len(parts) - 1, 0, -1):
            module = '::'.join(parts[:size])
            if module in modules and len(parts) > size:
                name = parts[size]
                if name in modules[module].given and name not in modules[module].types:
                    return self.resolve(owner, modules[module].given[name], seen + 1)
                return owner, module, name, parts[size + 1:]
        if parts[0] in lib.given:
            given = lib.given[parts[0]]
            front = given if given.split('::')[0] in self.crates else 'crate::' + given
            return self.resolve(owner, '::'.join([front] + parts[1:]), seen + 1)
        return owner, 'lib' if 'lib' in modules else 'main', parts[0], parts[1:]

    def targets(self, call):
        """The functions, the types with a method, and the names of methods that a body names."""
        module = self.crates[call.crate].modules[call.module]
        body = without_arguments_of_types(call.body)
        functions, types, names = set(), set(), set(METHOD.findall(body))
        for path in PATH.findall(body):
            parts = path.split('::')
            if parts[0] == 'Self' and call.owner:
                found = (call.crate, call.module, call.owner, parts[1:])
            elif parts[0] in module.uses:
                found = self.resolve(call.crate, '::'.join([module.uses[parts[0]]] + parts[1:]))
            elif parts[0] in self.crates and len(parts) > 1:
                found = self.resolve(call.crate, path)
            elif (call.crate, call.module, parts[0]) in self.free or parts[0] in module.types:
                found = (call.crate, call.module, parts[0], parts[1:])
            elif parts[0] in module.modules and len(parts) > 1:
                found = self.resolve(call.crate, 'crate::' + path)
            else:
                found = None
                names.update(parts[1:])
            if not found:
                continue
            crate, place, name, rest = found
            if (crate, place, name) in self.free:
                functions.add((crate, place, name))
            else:
                types.add((crate, name))
                names.update(rest)
        return functions, types, names

    def reached(self, roots):
        """All calls that are reached from these."""
        reached, types, names, waiting = set(), set(), {}, list(roots)
        while waiting:
            while waiting:
                call = waiting.pop()
                if call in reached:
                    continue
                reached.add(call)
                functions, more, called = self.targets(call)
                types |= more
                waiting += [self.free[key] for key in functions]
                for name in called:
                    names.setdefault(name, set()).add((call.crate, call.module))
            for name, callers in names.items():
                for call in self.by_name.get(name, []):
                    if call not in reached and self.may_call(call, callers, types):
                        waiting.append(call)
            for (crate, owner), calls in self.methods.items():
                if (crate, owner) in types:
                    waiting += [call for call in calls if call not in reached and call.trait and self.is_of_std(call.trait)]
        return reached

    def is_of_std(self, trait):
        return re.match(r'[\w:]+', trait).group().split('::')[-1] in OF_STD

    def may_call(self, call, callers, types):
        if call.trait:
            return (call.crate, call.owner) in types
        near = any(self.may_hold(crate, module, call) for crate, module in callers)
        kind = self.kind_of(call)
        return near and (kind == 'trait' or (call.crate, call.owner) in types)

    def may_hold(self, crate, module, call):
        """Whether a module may have a value of the method's type: it is of that crate, or names the type, or one with such a field."""
        if crate == call.crate:
            return True
        if call.crate not in self.stands_on.get(crate, []):
            return False
        named = self.named_in(crate, module)
        return call.owner in named or any(name in named for name in self.holders_of(call.owner))

    def named_in(self, crate, module):
        """The words of a module."""
        if (crate, module) not in self.words:
            self.words[crate, module] = set(re.findall(r'\w+', self.crates[crate].modules[module].text))
        return self.words[crate, module]

    def holders_of(self, owner):
        """The types that have a field of this type, or of one that has."""
        if owner not in self.holders:
            found, waiting = set(), [owner]
            while waiting:
                name = re.compile(rf'\b{waiting.pop()}\b')
                for crate in self.crates.values():
                    for module in crate.modules.values():
                        for kind, (_, _, text) in module.types.items():
                            if kind not in found and kind != owner and name.search(text):
                                found.add(kind)
                                waiting.append(kind)
            self.holders[owner] = found
        return self.holders[owner]

    def kind_of(self, call):
        for module in self.crates[call.crate].modules.values():
            if call.owner in module.types:
                return module.types[call.owner][0]
        return None

    def calls_of(self, crates):
        return [call for name in crates for module in self.crates[name].modules.values() for call in module.calls]


def use_of_calls(crates):
    """For each public call whether the program reaches it, or tests alone, or nobody."""
    program = Program(crates)
    main = [call for call in program.calls_of(['aggs']) if call.name == 'main']
    by_main = program.reached(main)
    by_tests = program.reached(program.calls_of([name for name in crates if name in sources.TESTS]))
    use = {}
    for name, crate in crates.items():
        if name in sources.TESTS:
            continue
        for _, call in crate.calls():
            use[call] = 'program' if call in by_main else 'tests' if call in by_tests else 'nobody'
    return use
