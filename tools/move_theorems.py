#!/usr/bin/env python3
"""Moves the theorems of a crate from its specs/ to its proofs/, statements unchanged, and turns all use lines that name them.

usage: python3 tools/move_theorems.py CRATE [FILE,FILE..] [keep=FILE,FILE..] [dry]      at the top, with everything committed

- A definition (abbrev, unfoldable, data, record) that another definition, a file of definitions alone or another crate names stays
  in specs/; a file of specs/ where nothing stays moves whole, and each FILE that is named does so too.
- Any other file is cut in two of one name: its definitions in specs/, the rest in proofs/, which imports them.
- What keep= names stays as it is, with its theorems.
- A crate of which some theorem stands in proofs/ by this script already (a line of proofs/Lib.antt says so) is left alone.
- It stops nothing: it prints where a definition that stays names a theorem, and where one module holds what stays and what moves.
- Afterwards: rt check --fix-imports and rt fmt in the crate.
"""
import re,os,sys,glob,collections,subprocess
ROOT=os.getcwd(); os.chdir('crates')
c=sys.argv[1]
DRY='dry' in sys.argv[2:]
KEEP=set(x for a in sys.argv[2:] if a.startswith('keep=') for x in a[5:].split(','))
WHOLE=set(x for a in sys.argv[2:] if a!='dry' and not a.startswith('keep=') for x in a.split(','))
DONE='-- The theorems on the definitions of specs/.'
if os.path.exists(f'{c}/proofs/Lib.antt') and DONE in open(f'{c}/proofs/Lib.antt',encoding='utf-8').read(): sys.exit(f'{c}: moved already')
TOK=re.compile(r"[^\s(){}\[\].,;:λ=]+")
HEAD=re.compile(r"^(\s*)((?:pub |abbrev |unfoldable |pattern )*)(data |record )?([^\s(){}:.\-][^\s(){}:]*)\s*(\{[^}]*\})?\s*(:)\s")
DATA=re.compile(r"^(\s*)((?:pub )*)(data |record )([^\s(){}:]+)(.*)")
def parse(path):
    """A tree: list of items ('text', lines) | ('decl', name, kind, lines, mods) | ('mod', header_lines, items)"""
    ls=open(path,encoding='utf-8').read().split('\n')
    if ls[-1]=='': ls.pop()
    def block(i,end,ind):
        items=[];pend=[]
        cur=None
        while i<end:
            l=ls[i]
            if not l.strip(): pend.append(l); i+=1; continue
            k=len(l)-len(l.lstrip())
            if l.lstrip().startswith('--') and k<=ind: pend.append(l); i+=1; continue
            if l.lstrip().startswith('--'):
                # comment inside
                pend.append(l); i+=1; continue
            if k==ind and re.match(r'\s*module\b',l):
                hdr=pend+[l]; pend=[]; i+=1
                while not re.search(r'\bwhere\s*$',hdr[-1]): hdr.append(ls[i]); i+=1
                j=i
                while j<end and (not ls[j].strip() or len(ls[j])-len(ls[j].lstrip())>ind): j+=1
                # trailing comments at lower indentation are left outside already
                e=j
                while e>i and not ls[e-1].strip(): e-=1
                items.append(['mod',hdr,block(i,e,ind+2)])
                cur=None
                i=e
                continue
            if k==ind and re.match(r'\s*(pub )?(use|mod) ',l):
                items.append(['text',pend+[l]]); pend=[]; i+=1; cur=None
                while i<end and ls[i].strip() and '}' not in items[-1][1][-1] and '{' in l: items[-1][1].append(ls[i]); i+=1
                continue
            m=(DATA.match(l) or HEAD.match(l)) if k==ind else None
            if m:
                mods=m[2]
                kind='def' if (m[3] or 'abbrev' in mods or 'unfoldable' in mods or 'pattern' in mods) else 'thm'
                cur=['decl',m[4],kind,pend+[l],mods]; pend=[]
                items.append(cur); i+=1; continue
            if cur is None:
                items.append(['text',pend+[l]]); pend=[]; i+=1; continue
            cur[3].extend(pend+[l]); pend=[]; i+=1
        if pend: items.append(['text',pend])
        return items
    # leading comment
    return block(0,len(ls),0)
def walk(items,chain=()):
    for it in items:
        if it[0]=='mod': yield from walk(it[2],chain+(id(it),))
        elif it[0]=='decl': yield it,chain
files={}
for p in sorted(glob.glob(f'{c}/specs/**/*.antt',recursive=True)):
    files[p[len(c)+7:-5].replace('/','.')]=parse(p)
def uses_of(text):
    u={}
    for m in re.finditer(r"^\s*(?:pub |ghost |pub ghost )*use Rattle\.(\w+)\.(specs|proofs)\.([\w.]+)\.\{([^}]*)\}",text,re.M):
        for it in m[4].split(','):
            it=it.strip()
            if it:
                a,_,b=it.partition(' as '); u[(b or a).strip()]=(m[1],m[2],m[3],a.strip())
    return u
G={};ctors={}
for f,items in files.items():
    text=open(f'{c}/specs/{f.replace(".","/")}.antt',encoding='utf-8').read()
    u=uses_of(text)
    for d,chain in walk(items):
        G[(f,d[1])]=dict(kind=d[2],d=d,chain=chain,u=u,refs=set(),data=bool(re.search(r'^\s*(?:\w+ )*(data|record) ',[l for l in d[3] if l.strip() and not l.strip().startswith('--')][0])))
        if G[(f,d[1])]['data']:
            for l in d[3]:
                m=re.match(r"\s+(?:pub )?([^:(){}]+?) :",l)
                if m:
                    for n in m[1].split(): ctors[(f,n)]=d[1]
def res(f,n):
    if (f,n) in G: return (f,n)
    q=f.rsplit('.',1)
    if len(q)==2 and (q[0],q[1]) in G and q[0] in files: return (q[0],q[1])
    if (f,n) in ctors: return (f,ctors[(f,n)])
for k,v in G.items():
    body='\n'.join(re.sub(r'--.*','',l) for l in v['d'][3])
    for t in set(TOK.findall(body))|set(re.findall(r"[\w'-]+",body)):
        if t==k[1]: continue
        if (k[0],t) in G: v['refs'].add((k[0],t))
        elif (k[0],t) in ctors: v['refs'].add((k[0],ctors[(k[0],t)]))
        elif t in v['u'] and v['u'][t][0]==c and v['u'][t][1]=='specs':
            r=res(v['u'][t][2],v['u'][t][3])
            if r: v['refs'].add(r)
# roots
has_thm={f for f,_ in G if any(G[k]['kind']=='thm' for k in G if k[0]==f)}
for f in KEEP|WHOLE:
    if f not in files: sys.exit(f'{c}: no file specs/{f}')
has_thm-=KEEP
roots=[k for k in G if k[0] not in has_thm]
others=[p for p in glob.glob('**/*',recursive=True) if p.endswith(('.antt','.rt')) and '/out/' not in p and not p.startswith(f'{c}/specs/')]
ext=collections.defaultdict(set)
for p in others:
    for m in re.finditer(r"^\s*(?:pub |ghost |pub ghost )*use Rattle\."+c+r"\.specs\.([\w.]+)\.\{([^}]*)\}",open(p,encoding='utf-8').read(),re.M):
        for it in m[2].split(','):
            a=it.strip().partition(' as ')[0].strip()
            r=a and res(m[1],a)
            if r: ext[r].add(p)
KEEP_THM=set()
for r,ps in ext.items():
    if r[0] in WHOLE: continue
    if G[r]['kind']=='def': roots.append(r)
    elif any('/src/' in p for p in ps): print('a theorem is cited in code:',r,[p for p in ps if '/src/' in p])
stay=set();st=list(roots)
while st:
    k=st.pop()
    if k in stay: continue
    if G[k]['kind']=='thm' and k[0] not in KEEP:
        print('kept theorem-like (no abbrev):',k); 
    stay.add(k)
    for r in G[k]['refs']:
        if G[r]['kind']=='thm' and r[0] not in KEEP: print('a definition that stays cites a theorem?',k,r); continue
        st.append(r)
# chain conflicts
for k in G:
    if k in stay and G[k]['chain']:
        near=[x for x in G if x[0]==k[0] and x not in stay and G[x]['chain'] and G[x]['chain'][0]==G[k]['chain'][0]]
        if near: print('CONFLICT: in one module:',k,'with',len(near),'that move, e.g.',near[0][1])
def emit(items,want):
    out=[]
    for it in items:
        if it[0]=='mod':
            inner=emit(it[2],want)
            if any(l.strip() and not l.strip().startswith('--') for l in inner): out+=it[1]+inner
        elif it[0]=='decl':
            if want(it): out+=it[3]
        else:
            out+=it[1]
    return out
moved_files=set();split_files=set()
defnames={}
for f,items in files.items():
    ds=[k for k in G if k[0]==f]
    if not ds: continue
    if f not in has_thm: continue
    s=[k for k in ds if k in stay]
    if not s: moved_files.add(f)
    elif len(s)==len(ds): pass
    else: split_files.add(f)
print('whole:',sorted(moved_files)); print('split:',{f:sorted(k[1] for k in stay if k[0]==f) for f in sorted(split_files)})
if DRY: sys.exit()
os.makedirs(f'{c}/proofs',exist_ok=True)
index=[f for f in files if f!='Lib' and not any(k[0]==f for k in G)]
def path(sub,f): return f'{c}/{sub}/{f.replace(".","/")}.antt'
def write(p,ls):
    os.makedirs(os.path.dirname(p),exist_ok=True)
    open(p,'w',encoding='utf-8').write('\n'.join(ls).rstrip('\n')+'\n')
for f in moved_files:
    os.makedirs(os.path.dirname(path('proofs',f)),exist_ok=True)
    subprocess.run(['git','mv',path('specs',f),path('proofs',f)],check=True)
for f in split_files:
    ids={id(G[k]['d']) for k in G if k in stay}
    # what moves uses own stays: they become pub
    keep=[k for k in stay if k[0]==f]
    used={r for k in G if k[0]==f and k not in stay for r in G[k]['refs']}
    for k in keep:
        if 'pub' not in G[k]['d'][4] :
            d=G[k]['d']
            for i,l in enumerate(d[3]):
                if l.strip() and not l.strip().startswith('--'):
                    m=re.match(r"(\s*)((?:abbrev |unfoldable |pattern )*)(.*)",l)
                    if k in used or True: d[3][i]=m[1]+m[2]+('pub ' if k in used else '')+m[3]
                    break
    st_=emit(files[f],lambda d:id(d) in ids)
    mv=emit(files[f],lambda d:id(d) not in ids)
    # import own stays after the first comment / before first use
    names=sorted(k[1] for k in keep if k in used)
    at=next((i for i,l in enumerate(mv) if l.startswith('use ')),0)
    imp=[]
    if names: imp.append(f'use Rattle.{c}.specs.{f}.{{'+', '.join(names)+'}')
    for k in keep:
        if G[k]['data']:
            cs=sorted(n for (ff,n),dn in ctors.items() if ff==f and dn==k[1])
            body='\n'.join(l for kk in G if kk[0]==f and kk not in stay for l in G[kk]['d'][3])
            isdata=any(re.match(r'\s*(pub )?data ',l) for l in G[k]['d'][3])
            cs=[x for x in cs if isdata and re.search(r"(?<![\w'-])"+re.escape(x)+r"(?![\w'-])",body)]
            if cs: imp.append(f'use Rattle.{c}.specs.{f}.{k[1]}.{{'+', '.join(cs)+'}')
    mv[at:at]=imp
    write(path('specs',f),st_); write(path('proofs',f),mv)
# index files (pub mod)
allp=moved_files|split_files
for f in index:
    ls=open(path('specs',f),encoding='utf-8').read().split('\n')
    sp=[];pr=[]
    for l in ls:
        m=re.match(r'pub mod (\w+)',l)
        if not m: sp.append(l); pr.append(l); continue
        g=f+'.'+m[1]
        if g not in moved_files: sp.append(l)
        if g in allp: pr.append(l)
    if any(l.startswith('pub mod') for l in pr): write(path('proofs',f),pr)
    if any(l.startswith('pub mod') for l in sp): write(path('specs',f),sp)
    else: os.remove(path('specs',f))
# subfolders of a file with declarations that also has pub mods (Reading)
for f in list(split_files|moved_files):
    subs=[g for g in files if g.startswith(f+'.')]
    if not subs: continue
    for sub in ('specs','proofs'):
        p=path(sub,f)
        if os.path.exists(p):
            ls=open(p,encoding='utf-8').read().split('\n')
            out=[]
            for l in ls:
                m=re.match(r'pub mod (\w+)',l)
                if m:
                    g=f+'.'+m[1]
                    if sub=='specs' and g in moved_files: continue
                    if sub=='proofs' and g not in allp: continue
                out.append(l)
            write(p,out)
    if f in moved_files and any(g not in moved_files for g in subs):
        print('LOOK: index with moved declarations and staying parts:',f)
# Lib
top=set()
ls=open(f'{c}/specs/Lib.antt',encoding='utf-8').read().split('\n')
sp=[];pr=[]
for l in ls:
    m=re.match(r'pub mod (\w+)',l)
    if not m: sp.append(l); continue
    if os.path.exists(path('specs',m[1])): sp.append(l)
    if os.path.exists(path('proofs',m[1])): pr.append(l)
write(f'{c}/specs/Lib.antt',sp)
old=open(f'{c}/proofs/Lib.antt',encoding='utf-8').read().split('\n') if os.path.exists(f'{c}/proofs/Lib.antt') else [DONE]
have={re.sub(r'pub ','',l).strip() for l in old}
write(f'{c}/proofs/Lib.antt',[l for l in old if l.strip()]+[l for l in pr if l.replace('pub ','').strip() not in have])
# use lines everywhere
def turn(m):
    indent,kw,pp,names,semi=m[1],m[2],m[3],m[4],m[5]
    s,p=[],[]
    for it in names.split(','):
        it=it.strip()
        if not it: continue
        a=it.partition(' as ')[0].strip()
        r=res(pp,a)
        if r is None:
            base=pp if pp in files else pp.rsplit('.',1)[0]
            (p if base in moved_files else s).append(it); continue
        (s if r in stay or r[0] not in allp else p).append(it)
    out=[]
    for sub,l in (('specs',s),('proofs',p)):
        if l: out.append(f'{indent}{kw}use Rattle.{c}.{sub}.{pp}.{{'+', '.join(l)+'}'+semi)
    return '\n'.join(out)
def turn_alias(m,text,p):
    """A use line `use .. as A`: what the file names by A tells where it goes."""
    mod,alias=m[2],m[3]
    if mod in moved_files: return f'{m[1]}proofs.{mod} as {alias}{m[4]}'
    if mod not in split_files: return m[0]
    names=set(re.findall(r"(?<![\w.])"+alias+r"\.([^\s(){}\[\];,.]+)",text))
    goes={n for n in names if res(mod,n) and res(mod,n) not in stay}
    if goes and goes!=names: print('LOOK: names of both folders by one alias:',p,m[0],sorted(names-goes),sorted(goes))
    return f'{m[1]}proofs.{mod} as {alias}{m[4]}' if goes else m[0]
n=0
for p in glob.glob('**/*',recursive=True):
    if p.endswith(('.antt','.rt')) and '/out/' not in p and os.path.isfile(p):
        t=open(p,encoding='utf-8').read()
        u=re.sub(r"^([ \t]*)((?:pub |ghost |pub ghost )*)use Rattle\."+c+r"\.specs\.([\w.]+)\.\{([^}]*)\}(;?)",turn,t,flags=re.M)
        u=re.sub(r"^([ \t]*(?:pub |ghost |pub ghost )*use Rattle\."+c+r"\.)specs\.([\w.]+) as (\w+)(;?)$",lambda m:turn_alias(m,u,p),u,flags=re.M)
        if u!=t: open(p,'w',encoding='utf-8').write(u); n+=1
for p in glob.glob(f'{c}/specs/**/*.antt',recursive=True):
    t=open(p,encoding='utf-8').read()
    u=re.sub(r"^use Rattle\."+c+r"\.proofs\.[^\n]*\n","",t,flags=re.M)
    if u!=t: open(p,'w',encoding='utf-8').write(u)
print(n,'files with other use lines')
