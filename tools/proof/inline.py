# inline.py FILE.. : an answer that is `search needs` alone, or `omega arith`, goes from a declaration of its own to its place among the answers
import re,sys
for p in sys.argv[1:]:
    s=open(p).read()
    for m in list(re.finditer(r'(?m)^(\S+) : \S*\.Need-\S+(?: .*)?\n\1((?: \S+)*) = (search needs|omega arith)\n\n?',s)):
        name,args,how=m.groups()
        rest=s.replace(m[0],'',1)
        uses=list(re.finditer(r'(?<![^\s(])'+re.escape(name)+r'(?![^\s)])',rest))
        if len(uses)!=1: continue
        u=uses[0]
        s=rest[:u.start()]+f'(λ{args}. {how})'+rest[u.end():]
    open(p,'w').write(s)
