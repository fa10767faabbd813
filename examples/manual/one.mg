% The smallest grammar: one class, whose tree is one node.
class One {
  <syn>{ node [cat=s] }
}
value One
