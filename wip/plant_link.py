import subprocess,re,sys,os
root='/work/hl'
crate=sys.argv[1]
bugs=[]
for block in open(sys.argv[2]).read().split('\n\n'):
    lines=[l for l in block.split('\n') if l.strip()]
    if len(lines)<4: continue
    label,f,old,new=lines[0],lines[1],lines[2],lines[3]
    bugs.append((label,f,old.replace('\\n','\n'),new.replace('\\n','\n')))
out=open(sys.argv[3],'a')
for label,f,old,new in bugs:
    p=f'{root}/crates/{crate}/src/{f}'
    s=open(p).read()
    if s.count(old)!=1:
        out.write(f'{label} | BAD {s.count(old)} occurrences\n'); out.flush(); continue
    open(p,'w').write(s.replace(old,new))
    try:
        r=subprocess.run(['nice','-n','5','rt','dev',crate],cwd=root,capture_output=True,text=True)
        log=r.stdout+r.stderr
        open(f'/tmp/plant_{crate}_{label}.log','w').write(log)
        if re.search(r'^logic=proved',log,re.M): res='PASSED'
        else:
            first=[l for l in log.split('\n') if re.search(r'no proof|error',l)]
            res='refused: '+(first[0][:220] if first else log[-200:])
    finally:
        open(p,'w').write(s)
    out.write(f'{label} | {res}\n'); out.flush()
