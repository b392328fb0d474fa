#!/usr/bin/env python3
"""Brings a checkout of the commit at which the design pass began to its spelling: the library's Option for mathlib's, `slice_get` for `get_elem?`, and Option and Result for the own enums of
their shape, in src/, specs/ and proofs/; meaning functions that became identities are left out. What differs from it afterwards differs by more than spelling (tools/design_page.py).
It was run once on the sources and is kept for that comparison. usage: tools/design_spell.py TOP"""
import glob, os, re, sys

def options(root):
    W=r"[\w'\-?≡◌ℕ]"
    n=0
    for f in glob.glob(root+'/crates/**/*',recursive=True):
        if not (f.endswith('.antt') or f.endswith('.rt')): continue
        if '/out/' in f: continue
        t=open(f).read()
        m=re.findall(r"(?:Rattle\.std\.proofs\.Math|mathlib\.Core)\.Option\.\{([^}]*)\}",t)
        if not m: continue
        names=set(x.strip() for g in m for x in g.split(','))
        lines=[]
        for line in t.split('\n'):
            mm=re.match(r"^((?:ghost |pub )*use )(?:Rattle\.std\.proofs\.Math|mathlib\.Core)\.Option\.\{([^}]*)\}(;?)\s*$",line)
            if mm:
                ns=[x.strip() for x in mm.group(2).split(',')]
                pre=[{'some':'Some','none':'None','Option':'Option'}[x] for x in ns if x in('some','none','Option')]
                oth=[x for x in ns if x not in('some','none','Option')]
                out=[]
                if f.endswith('.rt'): pre=[x for x in pre if x=='Option']  # variants need no import in clauses
                if pre: out.append(f"{mm.group(1)}Rattle.std.specs.Prelude.{{{', '.join(pre)}}}{mm.group(3)}")
                if oth:
                    mp={'some-injective':'Some-injective','none-ne-some':'None-ne-Some'}
                    out.append(f"{mm.group(1)}Rattle.laws.specs.Options.{{{', '.join(mp[x] for x in oth)}}}{mm.group(3)}")
                lines+=out
                continue
            lines.append(line)
        body='\n'.join(lines)
        # strings/comments: leave comment lines
        def sub(line):
            s=line.lstrip()
            if s.startswith('--') or s.startswith('//'): return line
            for a,b in(('some','Some'),('none','None'),('some-injective','Some-injective'),('none-ne-some','None-ne-Some')):
                if a in names:
                    line=re.sub(r"(?<![\w'\-?.≢≡])"+a+r"(?![\w'\-?≡≢])(?!\.)",b,line)
            return line
        body='\n'.join(sub(l) for l in body.split('\n'))
        open(f,'w').write(body); n+=1



def elements(root):
    for f in glob.glob(root+'/crates/**/*',recursive=True):
        if not (f.endswith('.antt') or f.endswith('.rt') or f.endswith('.edit')) or '/out/' in f: continue
        t=open(f).read()
        if 'get_elem?' not in t: continue
        lines=[]
        for line in t.split('\n'):
            m=re.match(r"^((?:ghost |pub )*use )((?:Rattle\.std\.proofs\.Math\.ListN|mathlib\.Core\.List|lib\.ListN))\.\{([^}]*)\}(;?)\s*$",line)
            if m and 'get_elem?' in m.group(3):
                ns=[x.strip() for x in m.group(3).split(',')]
                ns=[x for x in ns if x!='get_elem?']
                lines.append(f"{m.group(1)}Rattle.std.specs.Prelude.{{slice_get}}{m.group(4)}")
                if ns: lines.append(f"{m.group(1)}{m.group(2)}.{{{', '.join(ns)}}}{m.group(4)}")
                continue
            lines.append(line.replace('get_elem?','slice_get'))
        open(f,'w').write('\n'.join(lines))



def answers(root):
    # type: (crate.module, rust type, antt type, extra antt imports, {variant: (ctor, arity)})
    S='Rattle.definition.specs.declared.Refusal.TheVariants'
    def opt(path,rust,antt,imps,some,none,ar=1):
        return (path,rust,antt,imps,{some:('Some',ar),none:('None',0)})
    P='Rattle.std.specs.Prelude'
    T={
     'DateAnswer':opt('definition','Option<Date>','Option DayNumber',[('Rattle.definition.specs.declared.Date','Date','DayNumber')],'Is','Absent'),
     'RowAnswer':opt('definition','Option<u32>','Option ℕ',[(P,'ℕ',None)],'Is','Absent'),
     'U64Answer':opt('text','Option<u64>','Option ℕ',[(P,'ℕ',None)],'Is','Absent'),
     'U32Answer':opt('text','Option<u32>','Option ℕ',[(P,'ℕ',None)],'Is','Absent'),
     'U16Answer':opt('text','Option<u16>','Option ℕ',[(P,'ℕ',None)],'Is','Absent'),
     'I64Answer':opt('text','Option<i64>','Option ℤ',[(P,'ℤ',None)],'Is','Absent'),
     'I32Answer':opt('text','Option<i32>','Option ℤ',[(P,'ℤ',None)],'Is','Absent'),
     'YmdAnswer':opt('date','Option<Ymd>','Option Ymd',[('Rattle.definition.specs.declared.Ymd','Ymd',None)],'Is','Absent'),
     'WeekdayAnswer':opt('date','Option<u32>','Option ℕ',[(P,'ℕ',None)],'Is','Absent'),
     'LengthAnswer':opt('date','Option<u32>','Option ℕ',[(P,'ℕ',None)],'Is','Absent'),
     'Row':opt('index','Option<u32>','Option ℕ',[(P,'ℕ',None)],'At','None'),
     'Made':opt('index','Option<Table>','Option Table',[('Rattle.index.specs.declared.Table','Table',None)],'Ready','NoRoom'),
     'Found':opt('tree','Option<usize>','Option ℕ',[(P,'ℕ',None)],'At','Nothing'),
     'Verdict':opt('tree','Option<usize>','Option ℕ',[(P,'ℕ',None)],'Fine','Broken'),
     'FloatAnswer':opt('fields.value','Option<f64>','Option Float',[(P,'Float',None)],'Is','Absent'),
     'MinutesAnswer':opt('fields.value','Option<u32>','Option ℕ',[(P,'ℕ',None)],'Is','Absent'),
     'TimeAnswer':opt('number.time','Option<u16>','Option ℕ',[(P,'ℕ',None)],'Time','Absent'),
     'Opened':opt('model','Option<Sections>','Option Sections',[('Rattle.model.specs.declared.Sections','Sections',None)],'Model','NoModel'),
     'model.NameAnswer':opt('model.parts','Option<(usize, usize)>','Option (ℕ × ℕ)',[(P,'ℕ',None)],'At','Absent',2),
     'PeriodAnswer':opt('model.parts','Option<Period>','Option Period',[('Rattle.model.specs.declared.parts.Period','Period',None)],'Is','Absent'),
     'IdsMade':opt('names.ids','Option<Ids>','Option Ids',[('Rattle.names.specs.declared.ids.Ids','Ids',None)],'Ready','NoRoom'),
     'pack.NameAnswer':opt('pack.stars','Option<u32>','Option ℕ',[(P,'ℕ',None)],'Starred','Absent'),
     'MonthAnswer':opt('recurrence','Option<u32>','Option ℕ',[(P,'ℕ',None)],'Is','Absent'),
     'RuleAnswer':opt('recurrence','Option<Rule>','Option Rule',[('Rattle.recurrence.specs.declared.Rule','Rule',None)],'Is','Absent'),
     'RangeAnswer':opt('recurrence','Option<Range>','Option Range',[('Rattle.recurrence.specs.declared.Range','Range',None)],'Is','Absent'),
     'KindAnswer':opt('recurrence.kind','Option<Kind>','Option Kind',[('Rattle.recurrence.specs.declared.kind.Kind','Kind',None)],'Is','NoRule'),
     'KeptAnswer':opt('rows.kept','Option<(usize, u32)>','Option (ℕ × ℕ)',[(P,'ℕ',None)],'Is','Absent',2),
     'CalendarAnswer':opt('rows','Option<(usize, usize)>','Option (ℕ × ℕ)',[(P,'ℕ',None)],'Is','Absent',2),
     'WorkingTimeAnswer':opt('calendar.hours','Option<WorkingTime>','Option WorkingTime',[('Rattle.calendar.specs.declared.hours.WorkingTime','WorkingTime',None)],'Is','Absent'),
     'PlaceAnswer':opt('calendar.week','Option<u32>','Option ℕ',[(P,'ℕ',None)],'Is','Absent'),
     'DayAnswer':opt('calendar_days.exceptions','Option<(Date, Cursor)>','Option (DayNumber × Cursor)',[('Rattle.definition.specs.declared.Date','Date','DayNumber'),('Rattle.recurrence.specs.declared.Cursor','Cursor',None)],'Is','Absent',2),
     'calendar_days.Base':opt('calendar_days.base','Option<Lists>','Option Lists',[('Rattle.calendar_days.specs.declared.base.Lists','Lists',None)],'At','Default'),
     'calendars.Base':opt('calendars.base','Option<CalendarPlaces>','Option CalendarPlaces',[('Rattle.model.specs.declared.parts.CalendarPlaces','CalendarPlaces',None)],'At','Default'),
     'ConstraintAnswer':opt('tasks.task','Option<Constraint>','Option Constraint',[('Rattle.tasks.specs.declared.task.Constraint','Constraint',None)],'Is','Absent'),
     'OutlineAnswer':('outline','Result<u32, Refusal>','Result ℕ Refusal',[(P,'ℕ',None),(P,'Result',None),('Rattle.definition.specs.declared.Refusal','Refusal',None)],{'Rows':('Ok',1),'NoModel':('Err NoModel',0),'Short':('Err NoRoom',0)}),
     'SheetAnswer':('day_sheet','Result<usize, Refusal>','Result ℕ Refusal',[(P,'ℕ',None),(P,'Result',None),('Rattle.definition.specs.declared.Refusal','Refusal',None)],{'Written':('Ok',1),'NoModel':('Err NoModel',0),'Outside':('Err Outside',0),'Short':('Err NoRoom',0)}),
     'NumberAnswer':('number.decimal','Result<f64, Unread>','Result Float Unread',[(P,'Float',None),(P,'Result',None),('Rattle.definition.specs.declared.Unread','Unread',None)],{'Value':('Ok',1),'Absent':('Err Absent',0),'Long':('Err Long',0)}),
     'FiguresAnswer':('number.duration','Result<Figures, Unread>','Result Figures Unread',[('Rattle.definition.specs.declared.Figures','Figures',None),(P,'Result',None),('Rattle.definition.specs.declared.Unread','Unread',None)],{'Are':('Ok',1),'Absent':('Err Absent',0),'Long':('Err Long',0)}),
     'DurationAnswer':('number.duration','Result<Duration, Unread>','Result Duration Unread',[('Rattle.definition.specs.declared.Duration','Duration',None),(P,'Result',None),('Rattle.definition.specs.declared.Unread','Unread',None)],{'Minutes':('Ok',2),'Absent':('Err Absent',0),'Long':('Err Long',0)}),
     'TextAnswer':('number.write','Result<usize, Refusal>','Result ℕ Refusal',[(P,'ℕ',None),(P,'Result',None),('Rattle.definition.specs.declared.Refusal','Refusal',None)],{'Written':('Ok',1),'Outside':('Err Outside',0),'Short':('Err NoRoom',0)}),
    }
    # identity meanings to drop
    IDS={'u64_of','u32_of','u16_of','i64_of','i32_of','ymd_meaning','weekday_meaning','length_meaning','row_meaning','float_means','minutes_means'}
    IDMOD={'Rattle.number.specs.Number':{'meaning'},'Rattle.number.specs.Duration':{'meaning','figures_meaning'},'Rattle.number.specs.Time':{'meaning'},'Rattle.text.specs.Answers':{'u64_of','u32_of','u16_of','i64_of','i32_of'},'Rattle.date.specs.Answer':{'ymd_meaning','weekday_meaning','length_meaning'},'Rattle.definition.specs.Answer':{'row_meaning'},'Rattle.fields.specs.Answers':{'float_means','minutes_means'}}
    WC=r"A-Za-z0-9_'\-?ℕℤ≡≢≤<>+*^◌𝓛𝓤"
    def tok(x): return r"(?<![\w'\-?.])"+re.escape(x)+r"(?![\w'\-?]|\.\w)"
    def atom(t,i):
        """end of the atom at i"""
        n=len(t)
        if t[i] in '([{' or t[i]=='«':
            cl={'(':')','[':']','{':'}','«':'»'}[t[i]]; d=0;j=i
            while j<n:
                if t[j]==t[i]: d+=1
                elif t[j]==cl:
                    d-=1
                    if d==0: break
                j+=1
            j+=1
            while j<n and t[j]=='.' and j+1<n and re.match(r"[\w]",t[j+1]):
                j+=1
                while j<n and re.match(r"[\w'\-?]",t[j]): j+=1
            return j
        j=i
        while j<n and re.match(r"[\w'\-?.◌ℕℤ]",t[j]):
            if t[j]=='.' and not (j+1<n and re.match(r"[\w+]",t[j+1])): break
            j+=1
        return j
    def key(typ,crate):
        if typ in T: return typ
        if crate+'.'+typ in T: return crate+'.'+typ
        return None
    flags=[]
    def antt_ctor(t,pat,ctor,ar,f):
        """replace the constructor token pat in t"""
        out='';pos=0
        for m in re.finditer(pat,t):
            if m.start()<pos: flags.append((f,'overlap',t[m.start():m.start()+40])); continue
            out+=t[pos:m.start()]
            if ar<2:
                out+= ctor if ' ' not in ctor else '('+ctor+')'
                pos=m.end()
            else:
                i=m.end();args=[]
                while len(args)<ar and i<len(t) and t[i]==' ' :
                    j=atom(t,i+1)
                    if j==i+1: break
                    args.append(t[i+1:j]); i=j
                if len(args)==ar:
                    # arguments themselves may hold the token
                    args=[antt_ctor(a,pat,ctor,ar,f) for a in args]
                    out+=(ctor+' ('+', '.join(args)+')') if ctor!='Ok' else f'Ok (record {{ minutes = {args[0]}; whole = {args[1]} }})'
                    pos=i
                else:
                    flags.append((f,'partial',t[m.start():m.start()+60])); out+=ctor; pos=m.end()
        return out+t[pos:]
    def split_use(line):
        return re.match(r"^(\s*)((?:ghost |pub )*use )([\w.+\-]+?)(?:\.\{([^}]*)\})?( as [\w']+)?(;?)\s*$",line)
    def conv_specs(f,t,crate,is_rt):
        """uses and tokens of antt text (or the ghost uses and clauses of rt)"""
        lines=t.split('\n'); new=[]; types={}; ctors=[]; ids=set(); need=set()
        for line in lines:
            m=split_use(line)
            if m and m.group(3).startswith('Rattle.') :
                ind,kw,path,names,alias,semi=m.groups()
                tv=path.endswith('.TheVariants'); mm=re.match(r"Rattle\.(\w+)\.specs\.declared\.(?:[\w.]+\.)?(\w+)$",path[:-12] if tv else path)
                k=mm and key(mm.group(2),mm.group(1))
                if k and T[k][0].split('.')[0]==mm.group(1):
                    typ=mm.group(2)
                    if tv:
                        if names is None:
                            a=alias.strip()[3:]
                            for v,(c,ar) in T[k][4].items(): ctors.append((tok(a+'.'+v),c,ar))
                        else:
                            for x in names.split(','):
                                x=x.strip(); v,_,a=x.partition(' as '); a=a or v
                                c,ar=T[k][4][v]; ctors.append((tok(a),c,ar))
                        if any(' ' in c for c,_ in T[k][4].values()): need.add(('use',S))
                    else:
                        if names is None: # as alias
                            flags.append((f,'module alias',line)); 
                            a=alias.strip()[3:]
                            types[a+'.'+typ]=k
                            for v,(c,ar) in T[k][4].items(): ctors.append((tok(a+'.'+typ+'.'+v),c,ar))
                        else:
                            for x in names.split(','):
                                x=x.strip(); n,_,a=x.partition(' as '); a=a or n
                                types[a]=k
                                for v,(c,ar) in T[k][4].items(): ctors.append((tok(a+'.'+v),c,ar))
                    continue
                if path=='Rattle.definition.specs.Number' and names is not None:
                    ns=[x.strip() for x in names.split(',')]; keep=[]
                    for x in ns:
                        n,_,a=x.partition(' as '); a=a or n
                        if n in('absent','long','value'):
                            ctors.append((tok(a),{'absent':'Err Absent','long':'Err Long','value':'Ok'}[n],1 if n=='value' else 0))
                        else: keep.append(x)
                    if len(keep)!=len(ns):
                        if keep: new.append(f"{ind}{kw}{path}.{{{', '.join(keep)}}}{semi}")
                        continue
                if path in IDMOD and names is not None:
                    ns=[x.strip() for x in names.split(',')]; keep=[]
                    for x in ns:
                        n,_,a=x.partition(' as ')
                        if n in IDMOD[path]: ids.add(a or n)
                        else: keep.append(x)
                    if len(keep)!=len(ns):
                        if keep: new.append(f"{ind}{kw}{path}.{{{', '.join(keep)}}}{semi}")
                        continue
            new.append(line)
        # definitions of the identity meanings go
        mod=None
        for p in IDMOD:
            pp=p.split('.')
            if f.endswith(f"crates/{pp[1]}/specs/{'/'.join(pp[3:])}.antt"): mod=p
        if mod:
            out=[]; 
            i=0
            while i<len(new):
                l=new[i]
                m=re.match(r"^(?:abbrev |unfoldable )?pub (\w+) :",l)
                if m and m.group(1) in IDMOD[mod]:
                    i+=1
                    while i<len(new) and new[i].startswith(m.group(1)+' '): i+=1
                    if i<len(new) and new[i]=='' : i+=1
                    continue
                out.append(l); i+=1
            new=out; ids|=IDMOD[mod]
        def sub(seg):
            for pat,c,ar in ctors:
                if re.search(pat,seg): seg=antt_ctor(seg,pat,c,ar,f)
            for a,k in types.items():
                at=T[k][2]
                def r(m):
                    pre=seg[:m.start()].rstrip(); post=seg[m.end():].lstrip()
                    ok=(pre.endswith(':') or pre.endswith('→') or pre.endswith('×') or pre=='' ) and (post=='' or post[0] in ')}→=' ) and not (pre.endswith('×') )
                    for p,n,al in T[k][3]: need.add((p,n,al))
                    need.add((P,'Option',None) if at.startswith('Option') else (P,'Result',None))
                    return at if ok else '('+at+')'
                seg=re.sub(tok(a),r,seg)
            for i in sorted(ids,key=len,reverse=True):
                seg=re.sub(r"(?<![\w'\-?.])ap "+re.escape(i)+r" (?=[\w(])",'',seg)
                while True:
                    m=re.search(r"(?<![\w'\-?.])"+re.escape(i)+r" (?=[\w(«])",seg)
                    if not m: break
                    j=atom(seg,m.end()); a=seg[m.end():j]
                    s0=m.start()
                    if s0>0 and seg[s0-1]=='(' and j<len(seg) and seg[j]==')':
                        seg=seg[:s0-1]+a+seg[j+1:]
                    else: seg=seg[:s0]+a+seg[j:]
            return seg
        out=[]
        for l in new:
            s=l.lstrip()
            if s.startswith('--') or (is_rt and not re.match(r"(ghost|requires|ensures)\b",s)) or re.match(r"((ghost|pub) )*use ",s):
                out.append(l)
            else: out.append(sub(l))
        # needed imports
        txt='\n'.join(out)
        have={}
        for l in out:
            m=split_use(l)
            if m and m.group(4) is not None:
                for x in m.group(4).split(','):
                    n,_,a=x.strip().partition(' as '); have[a or n]=m.group(3)
        add={}
        for x in need:
            if x[0]=='use': continue
            p,n,a=x
            if n=='Date' and a=='DayNumber':
                al=[k for l in out for k in [re.match(r".*declared\.Date\.\{Date(?: as (\w+))?\}",l)] if k]
                if al:
                    nm=al[0].group(1) or 'Date'
                    out=[re.sub(tok('DayNumber'),nm,l) for l in out]; continue
                add.setdefault(p,[]).append('Date as DayNumber'); continue
            if n in have:
                if have[n]!=p and p!=P: flags.append((f,'name taken',n,have[n],p))
                continue
            add.setdefault(p,[]).append(n)
        # constructors
        body='\n'.join(l for l in out if not re.match(r"\s*((ghost|pub) )*use ",l) and not l.lstrip().startswith('--'))
        if not is_rt:
            for c in('Some','None','Ok','Err'):
                if re.search(tok(c),body) and c not in have: add.setdefault(P,[]).append(c)
            vs=sorted(set(re.findall(r"\(Err (Absent|Long)\)",body)))
            if vs: add.setdefault('Rattle.definition.specs.declared.Unread.TheVariants',[]).extend(v for v in vs if v not in have)
            if re.search(r"\(Err (NoModel|Outside|NoRoom)\)",body):
                vs=sorted(set(re.findall(r"\(Err (NoModel|Outside|NoRoom)\)",body)))
                add.setdefault(S,[]).extend(v for v in vs if v not in have)
        else: add={p:[x for x in ns if x not in ('Some','None','Ok','Err')] for p,ns in add.items()}
        ul=[f"{'ghost ' if is_rt else ''}use {p}.{{{', '.join(sorted(set(ns)))}}}{';' if is_rt else ''}" for p,ns in sorted(add.items()) if ns]
        if ul:
            idx=[i for i,l in enumerate(out) if re.match(r"\s*((ghost|pub) )*use ",l) and (not is_rt or 'ghost' in l)]
            at=idx[0]+1 if idx else 0
            if not idx:
                at=0
                while at<len(out) and (out[at].startswith('--') or out[at].startswith('//')): at+=1
            out[at:at]=ul
        return '\n'.join(out)
    def conv_rust(f,t,crate):
        # constructors and types in code
        names={}
        for k,v in T.items():
            typ=k.split('.')[-1]; c0=v[0].split('.')[0]
            if '.' in k and k.split('.')[0]!=crate and not (typ=='NameAnswer'): continue
            names.setdefault(typ,[]).append((k,c0))
        def resolve(typ):
            ks=names.get(typ)
            if not ks: return None
            if len(ks)==1: return ks[0][0]
            for k,c0 in ks:
                if c0==crate: return k
            if typ=='NameAnswer':
                return 'model.NameAnswer' if crate in('model',) or 'NameAnswer::At' in t else 'pack.NameAnswer'
            for k,c0 in ks:
                if re.search(r"use (crate::)?"+c0+r"\b.*"+typ,t) or re.search(c0+r"::"+typ,t): return k
            flags.append((f,'ambiguous',typ)); return ks[0][0]
        done=set()
        for typ in names:
            if not re.search(r"\b"+typ+r"\b",t): continue
            k=resolve(typ)
            if typ=='Row' and not re.search(r"\bRow\b",t): continue
            if typ in('Row','Base','Found','Made','Verdict','Opened') and not (re.search(r"\b"+typ+r"::",t) or re.search(r"(-> |: )"+typ+r"\b",t)): 
                pass
            rust=T[k][1]
            # code
            for v,(c,ar) in T[k][4].items():
                pat=re.compile(r"(?:\b(?:crate|[a-z_]+)::(?:[a-z_]+::)*)?\b"+typ+"::"+v+r"\b")
                pos=0;out=''
                for m in pat.finditer(t):
                    if m.start()<pos: continue
                    out+=t[pos:m.start()]
                    rc=c if ' ' not in c else 'Err('+('Unread' if c.split()[1] in('Absent','Long') else 'Refusal')+'::'+c.split()[1]+')'
                    pos=m.end()
                    if ar==2 and t[pos]=='(':
                        d=0;j=pos
                        while True:
                            if t[j]=='(':d+=1
                            elif t[j]==')':
                                d-=1
                                if d==0: break
                            j+=1
                        out+=rc+'('+t[pos:j+1]+')'; pos=j+1
                    else: out+=rc
                t=out+t[pos:]
            # the enum itself
            t=re.sub(r"(?:^//[^\n]*\n)*^#\[derive\(Clone, Copy\)\]\n(?:pub(?:\(crate\))? )?enum "+typ+r" \{\n(?:[^}]*\n)?\}\n\n?",lambda m:(done.add(typ) or ''),t,flags=re.M) if (T[k][0].split('.')[0]==crate) else t
            # types
            t=re.sub(r"(-> |: |<|, |\()(?:[a-z_]+::)*"+typ+r"\b(?!::)(?=[ ,;)>{\n])",lambda m: m.group(1)+rust if not re.search(r"(use|enum) [^;\n]*$",t[:m.start()].split('\n')[-1]) else m.group(0),t)
            # uses
            def use(m):
                l=m.group(0)
                l2=re.sub(r"\b"+typ+r"\b(, )?",'',l)
                l2=re.sub(r",\s*\}",'}',l2)
                l2=re.sub(r"\{\s*\}",'',l2)
                if re.search(r"::;\s*$",l2) or re.search(r"use\s*;",l2): return ''
                return l2
            t=re.sub(r"^(?:pub(?:\(crate\))? )?use [^;]*\b"+typ+r"\b[^;]*;\n",use,t,flags=re.M)
        for nm in ('Unread','Refusal','Duration'):
          if re.search(r'\b'+nm+r'(::|>|,| \{)',''.join(l for l in t.split('\n') if not l.lstrip().startswith(('//','ghost','use','ensures','requires')))) and not re.search(r"use definition::[^;]*"+nm,t) and crate!='definition':
            m=re.search(r"^use definition::\{([^}]*)\};",t,re.M)
            m1=re.search(r"^use definition::(\w+);",t,re.M)
            if m: t=t[:m.start()]+'use definition::{'+', '.join(sorted(set([x.strip() for x in m.group(1).split(',') if x.strip()]+[nm])))+'};'+t[m.end():]
            elif m1: t=t[:m1.start()]+'use definition::{'+', '.join(sorted([m1.group(1),nm]))+'};'+t[m1.end():]
            else:
                u=re.search(r"^use ",t,re.M) or re.search(r"^(mod|pub mod) ",t,re.M)
                g=[x.end() for x in re.finditer(r"^ghost use [^;]*;\n",t,re.M)]
                at=u.start() if u else g[-1]
                t=t[:at]+f'use definition::{nm};\n'+('' if u else '\n')+t[at:]
                if not u: flags.append((f,'use placed',nm))
        if False and re.search(r'\bRefusal(::|>)',t) and not re.search(r"use definition::[^;]*Refusal",t) and crate!='definition':
            m=re.search(r"^use definition::\{([^}]*)\};",t,re.M)
            m1=re.search(r"^use definition::(\w+);",t,re.M)
            if m: t=t[:m.start()]+'use definition::{'+', '.join(sorted(set([x.strip() for x in m.group(1).split(',')]+['Refusal'])))+'};'+t[m.end():]
            elif m1: t=t[:m1.start()]+'use definition::{'+', '.join(sorted([m1.group(1),'Refusal']))+'};'+t[m1.end():]
            else: flags.append((f,'needs use definition::Refusal'))
        if re.search(r"Option<Date>|\(Date, ",t) and not re.search(r"use definition::[^;]*\bDate\b",t) and crate!='definition':
            m=re.search(r"^use definition::\{([^}]*)\};",t,re.M); m1=re.search(r"^use definition::(\w+);",t,re.M)
            flags.append((f,'needs use definition::Date'))
        return t
    GOALS=[('Is','Some'),('Absent','None'),('At','Some'),('Nothing','None'),('Fine','Some'),('Broken','None'),('Ready','Some'),('NoRoom','None'),('Starred','Some'),('Model','Some'),('NoRule','None'),('Default','None'),('Time','Some')]
    for f in sorted(glob.glob(root+'/crates/**/*',recursive=True)):
        if '/out/' in f or not (f.endswith('.antt') or f.endswith('.rt')): continue
        crate=f[len(root)+8:].split('/')[0]
        t=open(f).read(); o=t
        if f.endswith('.antt'):
            t=conv_specs(f,t,crate,False)
            if '/proofs/' in f:
                for a,b in GOALS: t=re.sub(r"(?<=in-)"+a+r"(?![\w'])",b,t)
        else:
            t=conv_specs(f,t,crate,True)
            t=conv_rust(f,t,crate)
        if t!=o: open(f,'w').write(t)
    for x in flags: print(*x)



if __name__ == '__main__':
    for step in (options, elements, answers):
        step(sys.argv[1].rstrip('/'))
