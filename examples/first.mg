class Sentence {
  <syn>{
    node [cat=s, top=[mode=ind]] {
      node [cat=np, top=[case=nom]]
      node [cat=vp] {
        node [cat=v, bot=[tense=pres, mode=ind]]
      }
    }
  }
}
value Sentence
