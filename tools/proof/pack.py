# pack.py FILE..: sets the answers of a proof's closing list several a line
import re,sys
WIDTH=150
def balanced(s):
    d=0
    for ch in s:
        d+=(ch=='(')-(ch==')')
        if d<0: return False
    return d==0
for p in sys.argv[1:]:
    s=open(p,encoding='utf8').read()
    m=re.search(r'(?m)^    \(tie\.spec\n((?:    .*\n)+)\Z',s)
    if not m: continue
    args=[l.strip() for l in m.group(1).rstrip('\n').split('\n')]
    if not args[-1].endswith(')'): continue
    args[-1]=args[-1][:-1]
    if not all(map(balanced,args)): continue
    lines=['    (tie.spec']
    for i,a in enumerate(args):
        a+=')' if i==len(args)-1 else ''
        if len(lines)>1 and len(lines[-1])+1+len(a)<=WIDTH: lines[-1]+=' '+a
        else: lines.append('    '+a)
    open(p,'w',encoding='utf8').write(s[:m.start()]+'\n'.join(lines)+'\n')
