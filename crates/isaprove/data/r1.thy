typedecl o
judgment Trueprop :: "o => prop"
consts A :: "o"
consts B :: "o"
consts no :: "o => o"
axiomatization where a: "A" and b: "B" and nn: "P ==> no (no P)"
lemma t: "no (no A)"
apply (match nn)
apply (match a)
done
