% An adjective stands before a noun: black cat, small black cat.
class Adjective {
  <syn>{
    node [cat=n] {
      node (mark=anchor) [cat=a]
      node (mark=foot) [cat=n]
    }
  }
}
value Adjective
