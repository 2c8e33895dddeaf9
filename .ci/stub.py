"""Compares python/blink.pyi with the module that it describes: the names of each, and the parameters of each function by their names, their
kinds, and which may be left out. It prints a line for each difference and ends with 1, or prints nothing. It needs the library, as the module does.

    stub.py [FOLDER]  the folder of both files; without it that of the repository"""

import ast
import inspect
import pathlib
import sys

sys.dont_write_bytecode = True
folder = pathlib.Path(sys.argv[1]) if len(sys.argv) > 1 else pathlib.Path(__file__).resolve().parent.parent / "python"
sys.path.insert(0, str(folder))
import blink  # noqa: E402

found = []


def parameters_of_stub(function, bound):
    """Each parameter of a function of the stub: its name, its kind, and whether it may be left out."""
    its = function.args
    plain = its.posonlyargs + its.args
    first_default = len(plain) - len(its.defaults)
    told = [(it.arg, "plain", place >= first_default) for place, it in enumerate(plain)][bound:]
    told += [(it.arg, "keyword", default is not None) for it, default in zip(its.kwonlyargs, its.kw_defaults)]
    return told + [(it.arg, "rest", True) for it in (its.vararg, its.kwarg) if it]


def parameters_at_runtime(function, bound):
    kinds = {inspect.Parameter.POSITIONAL_ONLY: "plain", inspect.Parameter.POSITIONAL_OR_KEYWORD: "plain", inspect.Parameter.KEYWORD_ONLY: "keyword"}
    return [(it.name, kinds.get(it.kind, "rest"), it.kind not in kinds or it.default is not it.empty)
            for it in inspect.signature(function).parameters.values()][bound:]


def compares_function(name, overloads, there):
    """Each overload has the parameters that are there, or leaves out some that may be left out."""
    bound = 0 if isinstance(there, staticmethod) or "." not in name else 1
    wanted = parameters_at_runtime(inspect.unwrap(getattr(there, "__func__", there)), bound)
    for function in overloads:
        told = parameters_of_stub(function, bound)
        short = [it[:2] for it in told] == [it[:2] for it in wanted[: len(told)]] and all(it[2] for it in wanted[len(told):])
        may_be_left = all(wanted[place][2] for place, it in enumerate(told) if it[2] and place < len(wanted))
        if not short or not may_be_left or (len(overloads) == 1 and told != wanted):
            found.append(f"blink.pyi:{function.lineno}: {name} has {told}, and the module {wanted}")


# The names that the stub gives each class.
told_of = {}


def compares(name, body, there, own):
    """The statements of the stub's module or of one of its classes with what is there, and what is there of its own with the stub."""
    functions, others = {}, {}
    for it in body:
        if isinstance(it, ast.FunctionDef):
            functions.setdefault(it.name, []).append(it)
        elif isinstance(it, ast.ClassDef):
            others[it.name] = it
        elif isinstance(it, ast.AnnAssign):
            others[it.target.id] = it
        elif isinstance(it, ast.Assign):
            others[it.targets[0].id] = it
    for word, overloads in functions.items():
        if word not in there:
            found.append(f"blink.pyi:{overloads[0].lineno}: the module has no {name}{word}")
        elif isinstance(there[word], property):
            compares_function(name + word, overloads, there[word].fget)
        else:
            compares_function(name + word, overloads, there[word])
    for word, it in others.items():
        if word in there and isinstance(it, ast.ClassDef):
            compares_class(word, it.body, there[word])
        elif word not in there and not word.startswith("_") and name != "Error.":
            found.append(f"blink.pyi:{it.lineno}: the module has no {name}{word}")
    for word, value in there.items():
        if own(word, value) and word not in functions and word not in others and not word.startswith("_"):
            found.append(f"blink.pyi: lacks {name}{word}")
    return set(functions) | set(others)


def compares_class(name, body, its):
    """A class: what it has of a class above, that one tells."""
    above = set().union(*(told_of.get(it.__name__, ()) for it in its.__mro__))
    there = {word: value for it in reversed(its.__mro__) for word, value in vars(it).items()}

    def own(word, value):
        return word in vars(its) and word not in above and (callable(value) or isinstance(value, (classmethod, property)))

    told_of[name] = compares(f"{name}.", body, there, own)


named = vars(blink)
compares("", ast.parse((folder / "blink.pyi").read_text()).body, named,
         lambda _, value: getattr(value, "__module__", "blink") == "blink" and not inspect.ismodule(value))
print(*found, sep="\n", end="\n" if found else "")
sys.exit(bool(found))
