"""Texts with their trees or their faults: the number of levels, the text, and what it is read to.

`@a-b` stands for the span from the byte a up to b, and `#name@a` for the name there.
"""
SAMPLES = [
    (20, 'constant C = (-1 + y.f) * 2;',
     'Ok (rd.Storage (record { span = @0-28; kind = sk.Constant; name = #C@9; ty = None; init = Some (ex.Binary @13-27 bin.Multiply (ex.Binary @14-22 bin.Add (ex.Unary @14-16 un.Negate (ex.Int @15-16 1)) (ex.Field @19-22 (ex.Name @19-20 (codes "y")) #f@21)) (ex.Int @26-27 2)) }) ∷ [])'),
    (20, 'let x = R{-};',
     'Ok (rd.Storage (record { span = @0-13; kind = sk.Let; name = #x@4; ty = None; init = Some (ex.Construct @8-12 #R@8 []) }) ∷ [])'),
    (20, 'let x = f{-a, 2}(b) IN {-, -1 .. 2, !{3}};',
     'Ok (rd.Storage (record { span = @0-42; kind = sk.Let; name = #x@4; ty = None; init = Some (ex.In @8-41 (ex.Call @8-19 #f@8 (ex.Unary @10-12 un.Negate (ex.Name @11-12 (codes "a")) ∷ ex.Int @14-15 2 ∷ []) (ex.Name @17-18 (codes "b") ∷ [])) '
     '(pa.SetPattern @23-41 false (pa.AnyPattern @24-25 ∷ pa.RangePattern @27-34 (ex.Unary @27-29 un.Negate (ex.Int @28-29 1)) (ex.Int @33-34 2) ∷ pa.SetPattern @36-40 true (pa.ValuePattern @38-39 (ex.Int @38-39 3) ∷ []) ∷ []))) }) ∷ [])'),
    (20, 'type E of enumeration {A, B,};',
     'Ok (rd.Type (record { span = @0-30; name = #E@5; def = td.Labels @10-29 (#A@23 ∷ #B@26 ∷ []); supertype = None }) ∷ [])'),
    (20, 'func f() begin a[1].b = if p then q else r; end;',
     'Ok (rd.Func (record { span = @0-48; word = bw.NoWord; qualifier = ql.Unqualified; name = #f@5; params = []; formals = []; result = None; limit = None; body = rs.Simple (stm.Assign @15-43 (tg.Place @15-21 #a@15 (record { end = 19; suffix = su.SlicesOf (sl.BitAt (ex.Int @17-18 1) ∷ []) } ∷ record { end = 21; suffix = su.FieldOf #b@20 } ∷ [])) '
     '(ex.Conditional @24-42 (ex.Name @27-28 (codes "p")) (ex.Name @34-35 (codes "q")) (ex.Name @41-42 (codes "r")))) ∷ [] }) ∷ [])'),
    (20, 'func f() begin g{1}(a)[2].b = c; g(a) = c; getter(); end;',
     'Ok (rd.Func (record { span = @0-57; word = bw.NoWord; qualifier = ql.Unqualified; name = #f@5; params = []; formals = []; result = None; limit = None; '
     'body = rs.Store @15-32 #g@15 (ex.Int @17-18 1 ∷ []) (ex.Name @20-21 (codes "a") ∷ []) (record { end = 25; suffix = su.SlicesOf (sl.BitAt (ex.Int @23-24 2) ∷ []) } ∷ record { end = 27; suffix = su.FieldOf #b@26 } ∷ []) (ex.Name @30-31 (codes "c")) ∷ '
     'rs.Store @33-42 #g@33 [] (ex.Name @35-36 (codes "a") ∷ []) [] (ex.Name @40-41 (codes "c")) ∷ rs.Simple (stm.Invoke @43-52 #getter@43 [] []) ∷ [] }) ∷ [])'),
    (20, 'impdef accessor a{N}() <=> v: T begin pure getter end; setter pass; end; end;',
     'Ok (rd.Accessor (record { span = @0-77; word = bw.ImpDef; name = #a@16; params = record { name = #N@18; ty = None } ∷ []; formals = []; value = record { name = #v@27; ty = ty.NamedType @30-31 (codes "T") }; '
     'qualifier = ql.Pure; getter = []; setter = rs.Simple (stm.Pass @62-67) ∷ [] }) ∷ [])'),
    (2, 'let x = y IN {-1};', 'Err (TooDeep 3 true)'),
    (2, 'let x = y IN {-};',
     'Ok (rd.Storage (record { span = @0-17; kind = sk.Let; name = #x@4; ty = None; init = Some (ex.In @8-16 (ex.Name @8-9 (codes "y")) (pa.SetPattern @13-16 false (pa.AnyPattern @14-15 ∷ []))) }) ∷ [])'),
    (2, 'let x = y IN {-;', 'Err (Syntax 1)'),
    (2, 'let x = a[0];', 'Ok (rd.Storage (record { span = @0-13; kind = sk.Let; name = #x@4; ty = None; init = Some (ex.Slices @8-12 (ex.Name @8-9 (codes "a")) (sl.BitAt (ex.Int @10-11 0) ∷ [])) }) ∷ [])'),
    (1, 'let x = a[0];', 'Err (TooDeep 4 false)'),
]
