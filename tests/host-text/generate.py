import random
random.seed(7)
def h(*xs):
    out=[]
    for x in xs:
        if isinstance(x,str): out+= ['%02X'%ord(c) for c in x]
        elif isinstance(x,(list,tuple)): out+=['%02X'%c for c in x]
        else: out.append('%02X'%x)
    return ' '.join(out)
L=[]
ESC,VT,SI,SO,CR,HT,RS,FS,GS,DC1,DC4,BEL=0x1b,0x0b,0x0f,0x0e,0x0d,9,0x1e,0x1c,0x1d,0x11,0x14,7
def case(R,C,*texts): L.append('%d %d '%(R,C)+' '.join((t+' /').strip() for t in texts))
# the manuals' two forms
case(12,80,h(ESC,VT,0x21,0x24,SI,'The quick',ESC,VT,0x23,0x28,SI,'brown',CR,'fox',CR,CR,'  jumps',ESC,VT,0x28,0x29,SI,'over'),h(ESC,'e','Now is the time'))
case(12,80,h(ESC,'e',SO,'NAME',SI,CR,SO,'ACCOUNT NUMBER',SI,CR,SO,'BALANCE',SI,CR,SO,'TRANSACTIONS  DATE',SI,'          ',SO,'DEPOSIT',SI))
# addresses at the corners, off the screen, and the settled transmission
case(12,80,h(ESC,VT,0x2b,0x6f,SI),h(ESC,VT,0x2c,0x20,SI),h(ESC,VT,0x20,0x70,SI),h(ESC,VT,0x20,0x20,SI))
case(12,80,h('A',CR,'B',ESC,'g',DC1))
# every broken address
for tail in ([],[0x21],[0x21,0x22],[SI],[0x21,SI],[0x21,0x22,0x23,0x24],[0x21,0x22,CR,0x41],[0x21,ESC,0x65],[0x7f,0x41],[0x21,0x7f],[0x21,0x22,0x7f],[0x21,0x22,0x80],[0xA1,0x22,SI],[ESC,VT,0x21,0x21,SI],[0x21,0x22,ESC,VT,0x21,0x21,SI]):
    case(4,7,h(SO,ESC,VT,tail,'Z'))
    case(4,7,h('ab',ESC,VT,tail))
# ESC before every other code, and at the end
for c in range(256):
    case(3,5,h('pq',CR,ESC,c,'r'))
for c in list(range(0x20))+[0x7f,0x80,0x96,0xff]:
    case(3,5,h('pq',c,'r'))
case(3,5,h('pq',ESC),h('r'))
case(3,5,h(ESC,ESC,'e'))
# every letter at the edges
setups={'open':h('abcdefghijklmno'),'mixed':h('ab',SO,'cd',SI,'ef',SO,'g',SI,'hijklm',SO,'no'),'protected':h(SO,'abcdefghijklmno'),'tabs':h('a',ESC,HT,SO,'c',ESC,HT,SI,'efghijklmn',ESC,HT)}
for name,setup in setups.items():
    for y,x in ((0,0),(0,2),(0,4),(1,0),(1,3),(2,4)):
        for letter in 'efighjkMabKcCdD':
            case(3,5,setup,h(ESC,VT,0x20+y,0x20+x,SI,ESC,letter))
        for c in (CR,HT,RS,FS,GS,BEL,DC4,DC1):
            case(3,5,setup,h(ESC,VT,0x20+y,0x20+x,SI,c))
        for c in (HT,DC1,DC4):
            case(3,5,setup,h(ESC,VT,0x20+y,0x20+x,SI,SO,ESC,c,'z'))
# one-cell rows
for letter in 'efighjkMabKcCdD':
    for y in (0,1):
        case(2,1,h('x',SO,'y'),h(ESC,VT,0x20+y,0x20,SI,ESC,letter),h(ESC,DC1))
for c in (CR,HT,DC1): 
    case(2,1,h('x',ESC,HT),h(ESC,'e',c),h(c))
# a held text stays; lock and light
case(3,5,h('ab',DC1),h('cd',DC1),h(ESC,DC1,BEL),h())
case(3,5,h(DC4),h('x'),h(ESC,DC4,BEL),h())
case(3,5,h('A',DC1,'B',ESC,DC1))
# starts of entry: none, at the cursor, protected, several
for t in (h('abc',RS,'def'),h(RS),h(SO,RS,SI,'xy'),h(RS,'a',RS,'b',CR,'c'),h('ab',ESC,'e',RS,ESC,'e')):
    case(3,5,t,h(DC1)); case(3,5,t,h(ESC,DC1)); case(3,5,t,h(ESC,'g',DC1)); case(3,5,t,h(ESC,'g',ESC,DC1))
# trailing spaces: open, protected, a row none of whose cells is sent
for t in (h('ab',CR,CR,'c'),h(SO,'ab  ',SI,CR,'c'),h(SO,'abcde',SI,'f'),h(SO,'ab',SI,'   ',SO,'cdefg',SI,'h'),h('     ','     ','x')):
    for k in (DC1,): case(3,5,t,h(ESC,'g',DC1)); case(3,5,t,h(ESC,'g',ESC,DC1))
# a text that fills the screen, and one character more
case(3,5,h('abcdefghijklmno'),h('P'))
case(2,1,h('abc'))
# a full screen of protected and open tab stops in turn: the longest text
full=[]
for i in range(1920):
    full+= [SO if i%2==0 else SI, ESC, HT]
case(24,80,h(full,ESC,VT,0x37,0x6f,SI,ESC,DC1))
full=[]
for i in range(1920):
    full+= [SI if i%2==0 else SO, ESC, HT]
case(24,80,h(full,ESC,'g',ESC,DC1),)
case(24,80,h([0x41+i%26 for i in range(1919)],ESC,VT,0x37,0x6f,SI,'z',ESC,'g',DC1))
# sizes
for R,C in ((1,5),(25,5),(3,0),(3,81),(24,80),(16,64),(24,64)):
    case(R,C,h('Hi'))
# random texts on small screens
pool=[ESC]*14+[SO,SI,CR,HT,RS,FS,GS,DC1,DC4,BEL,VT]*2+list(b'efighjkMabKcCdD')*2+list(b'  xyz\'!"')+[0x22,0x23,0x21,0x20,0x24]
for k in range(700):
    R,C=random.choice([(2,1),(2,2),(3,5),(4,3),(5,7),(24,2),(2,80)])
    ts=[]
    for _ in range(random.randint(1,4)):
        t=[]
        for _ in range(random.randint(0,40)):
            z=random.random()
            if z<0.08: t+=[ESC,VT,0x20+random.randint(0,R),0x20+random.randint(0,C),SI]
            elif z<0.25: t+=[ESC,random.choice(list(b'efighjkMabKcCdD')+[HT,DC1])]
            else: t.append(random.choice(pool))
        ts.append(h(t))
    case(R,C,*ts)
print('\n'.join(L))
