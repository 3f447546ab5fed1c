"""What models are put together from, in the AST and in the IDL, and the model `good`, in which no rule fails."""
import json
API = 'smithy.api#'
UNIT = {}
DOC = 'What this is for, in the words of those who run the service, for all who call it. '


def whole_id(x):
    return x if '#' in x else 'a#' + x


def trait_map(**k):
    return {API + n.rstrip('_'): v for n, v in k.items()}


def ref(x):
    return {'target': whole_id(x)}


def member_of(target, **k):
    r = ref(target)
    if k:
        r['traits'] = trait_map(**k)
    return r


def structure_of(members, **k):
    r = {'type': 'structure', 'members': members}
    if k:
        r['traits'] = trait_map(**k)
    return r


def shape(kind, **k):
    return {'type': kind, **k}


def operation_of(inp=None, out=None, errors=(), **k):
    r = {'type': 'operation', 'input': ref(inp or API + 'Unit'), 'output': ref(out or API + 'Unit')}
    if errors:
        r['errors'] = [ref(e) for e in errors]
    if k:
        r['traits'] = trait_map(**k)
    return r


def service(ops=(), res=(), errors=(), traits=None, **k):
    r = {'type': 'service', 'version': '1', **k}
    if ops:
        r['operations'] = [ref(o) for o in ops]
    if res:
        r['resources'] = [ref(o) for o in res]
    if errors:
        r['errors'] = [ref(o) for o in errors]
    if traits:
        r['traits'] = traits
    return r
S = API + 'String'


def ast(model):
    d = {'smithy': '2.0'}
    if model.get('meta'):
        d['metadata'] = model['meta']
    d['shapes'] = {whole_id(n): s for n, s in model['shapes'].items()}
    return json.dumps(d, separators=(',', ':'))


def node(v):
    if isinstance(v, dict):
        return '{' + ', '.join((json.dumps(k) + ': ' + node(x) for k, x in v.items())) + '}'
    if isinstance(v, list):
        return '[' + ', '.join(map(node, v)) + ']'
    return json.dumps(v)


def near(x):
    return x.split('#')[1] if x.startswith('a#') or x in (S, *(API + n for n in PRE)) else x
PRE = 'String Integer Long Boolean Blob Timestamp Unit Double Float Short Byte'.split()


def marks(tr, pad):
    out = []
    for k, v in tr.items():
        if k in (API + 'default', API + 'enumValue'):
            continue
        w = k[len(API):] if k.startswith(API) else near(k)
        out.append(pad + '@' + w + ('' if v == {} else '(' + node(v) + ')'))
    return ''.join((x + '\n' for x in out))


def idl(model):
    out = ['$version: "2.0"\n']
    for k, v in model.get('meta', {}).items():
        out.append('metadata %s = %s\n' % (k, node(v)))
    out.append('namespace a\n')
    for n, s in model['shapes'].items():
        k = s['type']
        out.append(marks(s.get('traits', {}), '') + k + ' ' + n)
        if k in ('list', 'map', 'structure', 'union', 'enum', 'intEnum'):
            ms = s.get('members', {})
            for f in ('member', 'key', 'value'):
                if f in s:
                    ms = {**ms, f: s[f]}
            out.append(' {\n')
            for f, x in ms.items():
                tr = x.get('traits', {})
                out.append(marks(tr, '    ') + '    ' + f)
                if 'num' not in k.lower():
                    out.append(': ' + near(x['target']))
                for d in ('default', 'enumValue'):
                    if API + d in tr:
                        out.append(' = ' + node(tr[API + d]))
                out.append('\n')
            out.append('}')
        elif k == 'operation':
            out.append(' {\n    input: %s\n    output: %s\n' % (near(s['input']['target']), near(s['output']['target'])))
            if 'errors' in s:
                out.append('    errors: [' + ', '.join((near(e['target']) for e in s['errors'])) + ']\n')
            out.append('}')
        elif k in ('service', 'resource'):
            out.append(' {\n')
            for f, v in s.items():
                if f in ('type', 'traits'):
                    continue
                if isinstance(v, list):
                    v = '[' + ', '.join((near(e['target']) for e in v)) + ']'
                elif f == 'identifiers':
                    v = '{' + ', '.join((a + ': ' + near(b['target']) for a, b in v.items())) + '}'
                elif isinstance(v, dict) and 'target' in v:
                    v = near(v['target'])
                else:
                    v = node(v)
                out.append('    %s: %s\n' % (f, v))
            out.append('}')
        out.append('\n\n')
    return ''.join(out)


def big(n, sh):
    """The structure Big, which reaches n structures."""
    per = max(1, n // 100)
    for b in range(100):
        sh['Mid%02d' % b] = structure_of({'m%d' % k: member_of('Low%05d' % (b * per + k)) for k in range(per)})
    for x in range(per * 100):
        sh['Low%05d' % x] = structure_of({'a': member_of(S)})
    sh['Big'] = structure_of({'m%02d' % b: member_of('Mid%02d' % b) for b in range(100)})


def good(parts, doc):
    """A service of 100 operations with http, 100 more by 50 resources, and `parts` parts of ten data shapes each, all in its closure."""
    sh = {}
    d = lambda k, n=60: {'documentation': (k + ': ' + DOC)[:n]} if doc else {}
    sh['Id'] = shape('string', traits=trait_map(length={'min': 1, 'max': 64}, pattern='^[a-z]+$'))
    levels = {x: member_of(API + 'Unit', enumValue=x.lower()) for x in ('LOW', 'MIDDLE', 'HIGH')}
    sh['level'] = shape('enum', members=levels, traits=trait_map(trait={}))
    owner = {'team': member_of(S, required={}), 'since': member_of(API + 'Integer')}
    sh['owner'] = structure_of(owner, trait={'selector': ':is(structure, operation, list)'})
    sh['words'] = shape('list', member=member_of(S), traits=trait_map(trait={'selector': 'structure > member'}))
    sh['early'] = structure_of({}, trait={'selector': '*', 'conflicts': ['a#late']})
    sh['late'] = structure_of({}, trait={})
    per, ops, res = (-(-parts // 100), [], [])
    for p in range(parts):
        n = 'Part%05d' % p
        for k in range(6):
            ms = {}
            for j in range(8):
                w = {**d('Field %d' % j)}
                if j == 0:
                    w['required'] = {}
                if j == 1:
                    w['range'] = {'min': 0, 'max': 1000}
                if j == 2:
                    w['length'] = {'max': 99}
                if j == 3:
                    w['default'] = 7
                if j == 4:
                    w['jsonName'] = 'name%d' % j
                if j == 5:
                    w['timestampFormat'] = 'date-time'
                target = [S, API + 'Long', S, API + 'Integer', n + 'List', API + 'Timestamp', n + 'Kind', API + 'Boolean'][j]
                if k < 5 and j == 7:
                    target = n + 'Data%d' % (k + 1)
                if k == 5 and j == 7:
                    target = n + 'Union'
                ms['field%d' % j] = member_of(target, **w)
                if j == 6:
                    ms['field6'].setdefault('traits', {})['a#words'] = ['x', 'y']
            s = structure_of(ms, **d('Data'))
            s.setdefault('traits', {})
            s['traits']['a#owner'] = {'team': 'payments', 'since': 2024}
            s['traits']['a#early' if k % 2 else 'a#level'] = {} if k % 2 else 'low'
            sh[n + 'Data%d' % k] = s
        sh[n + 'List'] = shape('list', member=ref(n + 'Short'), traits=trait_map(length={'max': 50}, **d('A list')))
        sh[n + 'Short'] = shape('string', traits=trait_map(length={'max': 20}, **d('A text')))
        kinds = {'KIND%d' % v: member_of(API + 'Unit', enumValue='kind-%d' % v, **d('Kind %d' % v, 30)) for v in range(6)}
        sh[n + 'Kind'] = shape('enum', members=kinds)
        sh[n + 'Union'] = shape('union', members={'text': member_of(S), 'number': member_of(API + 'Integer'), 'all': member_of(n + 'Map')})
        sh[n + 'Map'] = shape('map', key=member_of(S), value=member_of(n + 'Short'))
    for o in range(100):
        n = 'Make%03d' % o
        ops.append(n)
        ms = {'id': member_of('Id', required={}, httpLabel={}), 'who': member_of(S, httpHeader='x-who')}
        ms['kind'] = member_of(S, httpQuery='kind', **d('Query'))
        for p in range(o * per, min(parts, (o + 1) * per)):
            ms['part%05d' % p] = member_of('Part%05dData0' % p)
        sh[n + 'Input'] = structure_of(ms, input={})
        status = member_of(API + 'Integer', httpResponseCode={})
        answer = {'status': status, 'tag': member_of(S, httpHeader='x-tag'), 'note': member_of(S, default='')}
        sh[n + 'Output'] = structure_of(answer, output={})
        sh[n + 'Error'] = structure_of({'message': member_of(S)}, error='client', httpError=404)
        http = {'method': 'POST', 'uri': '/make%d/{id}' % o, 'code': 200}
        x = operation_of(n + 'Input', n + 'Output', [n + 'Error'], http=http, **d('Makes'))
        x['traits']['a#owner'] = {'team': 'search'}
        sh[n] = x
    for r in range(50):
        n = 'Thing%02d' % r
        res.append(n)
        for w, method in (('Read', 'GET'), ('Delete', 'DELETE')):
            sh[n + w + 'Input'] = structure_of({'id': member_of('Id', required={}, httpLabel={})}, input={})
            sh[n + w + 'Output'] = structure_of({'note': member_of(S)}, output={})
            k = {'readonly': {}} if w == 'Read' else {'idempotent': {}}
            sh[n + w] = operation_of(n + w + 'Input', n + w + 'Output', http={'method': method, 'uri': '/thing%d/{id}' % r}, **k)
        sh[n] = shape('resource', identifiers={'id': ref('Id')}, read=ref(n + 'Read'), delete=ref(n + 'Delete'))
    sh['All'] = service(ops, res, traits={'aws.protocols#restJson1': {}, **trait_map(title='All')})
    return {'shapes': sh}
