"""What crates/limits says once, the words that crates/reasons gives each refusal, and the sentences of crates/sentences: for the tests that hold
other files to them."""
import pathlib
import re

TOP = pathlib.Path(__file__).resolve().parents[2]
CRATES = TOP / 'crates'


def built(name):
    """A program as `rt ci` or `rt run` built it."""
    return CRATES / name / 'out' / name


def constants(path):
    """The constants of a file of Rattle, worked out; a constant may name the limits and those before it."""
    known = dict(limits()) if path != CRATES / 'limits/src/lib.rt' else {}
    for name, value in re.findall(r'pub const (\w+): \w+ = ([^;]+);', path.read_text()):
        refusal = re.fullmatch(r'Refusal::(\w+) as u64', value)
        known[name] = dict(numbers())[refusal[1]] if refusal else eval(value, {}, known)
    return known


def limits():
    return constants(CRATES / 'limits/src/lib.rt')


def defined(path):
    """The numbers that a specification gives a name by `abbrev`; one may name the limits and those before it."""
    known = dict(defined(CRATES / 'limits/specs/Limits.antt')) if path != CRATES / 'limits/specs/Limits.antt' else {}
    for name, value in re.findall(r'abbrev pub (\w+) : ℕ\n\1 = (.+)\n', path.read_text()):
        known[name] = eval(value.replace('^', '**'), {}, known)
    return known


def numbers():
    """Each refusal and its number, in the order of the definition."""
    return [(name, int(number)) for name, number in re.findall(r'^refusal_no Refusal\.(\w+) = (\d+)$', (CRATES / 'limits/specs/Refusals.antt').read_text(), re.M)]


def words():
    """The words of each refusal: they stand in its case, or in the function that it calls."""
    text = (CRATES / 'reasons/src/lib.rt').read_text()
    said, known = {}, limits()
    bodies = dict(re.findall(r"\nfn (\w+)\(page: &mut Page<'_>\)\n[^\n]*\n\{\n(.*?)\n\}\n", text, re.DOTALL))
    for name, call in re.findall(r'Refusal::(\w+) => ((?:put_\w+|page\.text)\([^;{}]*?\))\s*[,}]', text):
        parts = re.findall(r'b"([^"]*)"|\b([A-Z_]{2,})\b', bodies.get(call.split('(')[0], call))
        said[name] = ''.join(str(known[limit]) if limit else literal for literal, limit in parts)
    return said


def sentences():
    """The sentence of each refusal, as it goes over C."""
    text = (CRATES / 'sentences/specs/Sentences.antt').read_text()
    return dict(re.findall(r'^sentence_of Refusal\.(\w+) = ascii "([^"]*)"$', text, re.M))
