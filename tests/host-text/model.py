# An independent model of host texts, from the rules, for the expected output.
import sys
DATA=set(range(0x20,0x7f))
class T:
    def __init__(s,R,C):
        s.R,s.C=R,C; s.n=R*C
        s.cells=[(0x20,False)]*s.n
        s.cur=0; s.lock=False; s.light=False; s.held=None
    def put(s,code,prot):
        s.cells[s.cur]=(code,prot); s.cur=(s.cur+1)%s.n
    def runs(s,row):
        end=(s.cur//s.C+1)*s.C if row else s.n
        e=s.cur
        while e<end and not s.cells[e][1]: e+=1
        return e
    def take(s,allc):
        p=s.cur
        while p>0 and s.cells[p][0]!=0x1e: p-=1
        out=[0x1b,0x0b,0x20+p//s.C,0x20+p%s.C,0x0f]
        mark=False
        for r in range(p//s.C,s.cur//s.C+1):
            a=max(p,r*s.C); b=min(s.cur+1,(r+1)*s.C)
            sent=[c for c in s.cells[a:b] if allc or not c[1]]
            cr=False
            if r!=s.cur//s.C:
                while sent and sent[-1]==(0x20,False):
                    sent.pop(); cr=True
            for code,prot in sent:
                if prot!=mark: out.append(0x0e if prot else 0x0f); mark=prot
                if code==9 and allc: out.append(0x1b)
                out.append(code)
            if cr: out.append(0x0d)
        if mark: out.append(0x0f)
        return out
    def transmit(s,allc):
        if s.held is None: s.held=s.take(allc)
    def letter(s,c):
        n,C=s.n,s.C; B=(0x20,False)
        ch=chr(c)
        if ch=='e': s.cur=0
        elif ch=='f': s.cur=(s.cur-C)%n
        elif ch=='i': s.cur=(s.cur+C)%n
        elif ch=='g': s.cur=(s.cur-1)%n
        elif ch=='h': s.cur=(s.cur+1)%n
        elif ch=='j':
            r=s.cur//C; s.cells=(s.cells[:r*C]+[B]*C+s.cells[r*C:])[:n]
        elif ch=='k':
            r=s.cur//C; s.cells=s.cells[:r*C]+s.cells[(r+1)*C:]+[B]*C
        elif ch=='M':
            for i in range(s.cur,n): s.cells[i]=B
        elif ch=='a':
            for i in range(s.cur,n):
                if not s.cells[i][1]: s.cells[i]=B
        elif ch in 'bKcCdD':
            e=s.runs(ch in 'bcd'); a=s.cur
            if a==e: return
            part=s.cells[a:e]
            if ch in 'bK': part=[B]*len(part)
            elif ch in 'cC': part=part[1:]+[B]
            else: part=[B]+part[:-1]
            s.cells[a:e]=part
    def text(s,t):
        had=s.held is not None
        lock=False; prot=False; i=0
        while i<len(t):
            c=t[i]
            if c in DATA: s.put(c,prot); i+=1
            elif c==0x1b:
                if i+1>=len(t): i+=1; continue
                d=t[i+1]
                if d==0x0b:
                    j=i+2; got=[]
                    while len(got)<2 and j<len(t) and t[j] in DATA: got.append(t[j]); j+=1
                    if len(got)==2 and j<len(t) and t[j]==0x0f:
                        y,x=got[0]-0x20,got[1]-0x20
                        if y<s.R and x<s.C: s.cur=y*s.C+x
                        i=j+1
                    else: i=j
                else:
                    if d==9: s.put(9,prot)
                    elif d==0x11: s.transmit(True)
                    elif d==0x14: lock=True
                    elif d in DATA: s.letter(d)
                    i+=2
            else:
                if c==0x0e: prot=True
                elif c==0x0f: prot=False
                elif c in (0x1c,0x1d,0x1e): s.put(c,prot)
                elif c==0x0d: s.cur=((s.cur//s.C+1)*s.C)%s.n
                elif c==9:
                    p=s.cur
                    while p<s.n and s.cells[p][0]!=9: p+=1
                    s.cur=(p+1)%s.n if p<s.n else 0
                elif c==7: s.light=True
                elif c==0x14: lock=True
                elif c==0x11: s.transmit(False)
                i+=1
        s.lock=lock or s.held is not None
        return s.held is not None and not had
    def show(s,taken):
        b=lambda x:'true' if x else 'false'
        h='-' if s.held is None else ' '.join('%02X'%c for c in s.held)
        print('cursor %d lock %s light %s taken %s held %s'%(s.cur,b(s.lock),b(s.light),b(taken),h))
        print('cells'+''.join(' %d:%02X'%(i,c|0x80 if p else c) for i,(c,p) in enumerate(s.cells) if (c,p)!=(0x20,False)))
stores={(12,80),(16,64),(24,64),(24,80)}
for line in sys.stdin:
    w=line.split()
    R,C=int(w[0]),int(w[1])
    if not (2<=R<=24 and 1<=C<=80): print('refused 14'); continue
    t=T(R,C); cur=[]
    for x in w[2:]:
        if x=='/': t.show(t.text(cur)); cur=[]
        else: cur.append(int(x,16))
