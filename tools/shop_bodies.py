"""The shop that measurements ask, and a body of 1 MB for it."""
MODEL = '''$version: "2.0"
namespace shop
service Shop { version: "1" operations: [PutItem] }
operation PutItem { input: PutItemInput output: PutItemOutput }
structure PutItemInput { @required id: ItemId tags: Tags when: Timestamp dates: Dates at: Timestamp note: Note parent: Part }
structure PutItemOutput { @required count: Integer }
@length(min: 1, max: 8) string ItemId
@pattern("^[a-z ]*$") string Note
structure Part { @required name: String kids: Parts }
list Parts { member: Part } list Tags { member: String } list Dates { member: Timestamp }
'''


def part(left, depth, seed):
    """A tree of parts, twelve below each: its text, what is left of the bytes, and the next seed."""
    seed = (seed * 6364136223846793005 + 1442695040888963407) % (1 << 64)
    name = f'part {seed:016x}'
    left -= len(name) + 12
    kids = []
    for _ in range(12 if depth else 0):
        if left <= 0:
            break
        kid, left, seed = part(left - 10, depth - 1, seed)
        kids.append(kid)
    text = f',"kids":[{",".join(kids)}]' if kids else ''
    return f'{{"name":"{name}"{text}}}', left, seed


def large():
    return f'{{"id":"i1","note":"x","parent":{part(1_330_000, 6, 1)[0]}}}'.encode()
