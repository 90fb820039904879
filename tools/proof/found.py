# found.py CRATE : tries `search needs` in place of every answer that a proof of the crate has written out, and keeps it where the search finds it
import glob, os, re, subprocess, sys
crate = sys.argv[1]
answer = re.compile(r'(?m)^(\S+) : tie\.Need-\S+(?: [^\n]*)?\n\1((?: [^\s=]+)*?) =((?:[^\n]*\n)(?:[ )][^\n]*\n)*)')
proofs = {}; tried = {}
for f in glob.glob(f'crates/{crate}/proofs/**/Proof.antt', recursive=True):
    proofs[f] = open(f).read()
    tried[f] = {m[1]: m for m in answer.finditer(proofs[f]) if m[3].strip() != 'search needs'}
def write(f, kept):
    s = proofs[f]
    for name, m in tried[f].items():
        if name not in kept: s = s.replace(m[0], m[0][:m[0].index('\n') + 1] + f'{name}{m[2]} = search needs\n')
    open(f, 'w').write(s)
for f in proofs: write(f, set())
out = subprocess.run(['rt', 'dev', crate], capture_output=True, text=True, env=dict(os.environ, RT_CUT='0'))
refused = {f: set() for f in proofs}
for m in re.finditer(r'(?m)^(\S+Proof\.antt):\d+:\d+: (?!note: )(?:[^`\n]*`([^`]+)`)', out.stdout + out.stderr):
    f = os.path.relpath(m[1], os.getcwd())
    if f in refused: refused[f].add(m[2])
for f in proofs:
    write(f, refused[f])
    found = [name for name in tried[f] if name not in refused[f]]
    if found: print(f, *found)
