% A proper noun is a noun phrase by itself, and a common noun wants a determiner.
class ProperNoun {
  <syn>{ node (mark=anchor) [cat=np] }
}

class CommonNoun {
  <syn>{
    node [cat=np] {
      node (mark=subst) [cat=det]
      node (mark=anchor) [cat=n]
    }
  }
}

value ProperNoun
value CommonNoun
