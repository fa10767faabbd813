% An intransitive verb: the cat sleeps.
class Intransitive {
  <syn>{
    node [cat=s] {
      node (mark=subst) [cat=np]
      node [cat=vp] {
        node (mark=anchor) [cat=v]
      }
    }
  }
}
value Intransitive
