#!/usr/bin/env python3
"""changes.py OLDTREE NEWTREE: old and new, side by side, of each signature with its clauses in src/, and of each definition and statement of a theorem in
specs/ and proofs/*.antt, that changed"""
import re,glob,sys
OLD,NEW=sys.argv[1:3]
def one(t): return re.sub(r'\s+',' ',t).strip()
def src(root):
    out={}
    for f in sorted(glob.glob(root+'/crates/*/src/**/*.rt',recursive=True)):
        t=re.sub(r'//[^\n]*','',open(f).read()); rel=f[len(root)+8:]
        impl=''
        L=t.split('\n'); n=0
        while n<len(L):
            if re.match(r'^impl ',L[n]): impl=L[n].rstrip(' {')+' '
            if L[n]=='}': impl=''
            m=re.match(r'^( *)(?:pub(?:\(crate\))? )?(?:unsafe )?(?:extern "C" )?fn (\w+)',L[n])
            if m:
                ind=m.group(1); e=n
                while not (L[e]==ind+'{' or (L[e].endswith(' {') and not re.match(r'^\s+(requires|ensures)\b',L[e])) or L[e].rstrip().endswith(';') or (e==n and L[e].endswith('}'))): e+=1
                txt=one('\n'.join(L[n:e+1])); txt=re.sub(r' \{( [^{}]* \})?$','',txt)
                k=(rel,(impl if ind else '')+m.group(2)); c=2
                while k in out: k=(k[0],k[1].split('#')[0]+f'#{c}'); c+=1
                out[k]=txt; n=e
            n+=1
        for m in re.finditer(r'^(?:#\[[^\n]*\n)*(pub )?(struct|enum|const) (\w+)[^;{]*(?:\{.*?\n\}|;)',t,re.M|re.S): out[(rel,m.group(2)+' '+m.group(3))]=one(m.group(0))
    return out
def specs(root):
    out={}
    for f in sorted(glob.glob(root+'/crates/*/specs/**/*.antt',recursive=True)+glob.glob(root+'/crates/*/proofs/*.antt')):
        if '/out/' in f: continue
        t=re.sub(r'--[^\n]*','',open(f).read()); rel=f[len(root)+8:]
        for b in re.split(r'\n\s*\n',t):
            ls=[l for l in b.split('\n') if l.strip() and not re.match(r'\s*(use|pub use|pub mod|infix)\b',l)]
            while ls and re.match(r'\s*module ',ls[0]) and len(ls)>1:
                k=(rel,'module '+one(ls[0])); out.setdefault(k,one(ls[0])); ls=ls[1:]
            if not ls: continue
            m=re.match(r'\s*((?:abbrev |unfoldable )*)(?:pub )?(record |data |module )?(\S+)',ls[0])
            n=m.group(3)
            k=(rel,n); i=2
            while k in out: k=(rel,n+f'#{i}'); i+=1
            if m.group(1).strip() or m.group(2): out[k]=one('\n'.join(ls))
            else:
                st=[]
                for l in ls:
                    if st and (re.match(r'\s*'+re.escape(n.strip('◌'))+r'(\s|$)',l) and ' : ' not in l.split('=')[0] or re.match(r'\s*unfolding ',l)): break
                    st.append(l)
                out[k]=one('\n'.join(st))
    return out
for name,f in (('src',src),('specs and lemmas',specs)):
    a,b=f(OLD),f(NEW)
    print('====',name)
    for k in sorted(set(a)|set(b)):
        x,y=a.get(k),b.get(k)
        if x==y: continue
        print('@',k[0],k[1])
        if x: print('-',x)
        if y: print('+',y)
