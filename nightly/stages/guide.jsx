/* The guide's voice for the west wing, recorded in two languages; ** and // and * / are only words in here. **/
<guide
  title="A walk through the west wing, in forty minutes, with a rest in the middle and tea at the end"
  motto='He said "look up!", and we looked; nobody had seen the ceiling before = that is all'
  short="!" none='' // one line for the crew; it is long, and has * and / and { and < in it, but nothing counts here
  tea="차와 과자가 있습니다; the tea room is open until six (§ 4, ¢ 20, ¼ cup of milk), 휴식 시간"
>
  <voice from={0} to={41.5} /* a comment of more than eight bytes, and then of more than sixteen and thirty-two */ >
    Welcome. Please stay with the group; the floor is uneven, the light is low, and the doors close by themselves.
    ½ past ten we begin, ¾ of an hour later we are back. Prices: 20 ¢, 3 €, 1 £ | all included ~ thank you = enjoy.
  </voice>
  <voice lang="ko" from={42} to={80}>환영합니다. 바닥이 고르지 않으니 조심하세요, and mind the step on the left; 감사합니다.</voice>
  {say('Sixty-four bytes stand in this sentence, when counted with care.', "x", '', "[brackets] and `ticks` and !marks! stay as they are", "한국어와 English 섞어서 말합니다")}
  {// the last line of the script goes to the end of this line, and 여기까지 is content of it too, – even that dash
    ready ? <b>a</b> : <i>the other eye sees a longer text here, so that both of them have something to read</i>}
  <p>1234567</p><p>12345678</p><p>123456789</p><p>123456789012345</p><p>1234567890123456</p><p>12345678901234567</p>
</guide>
// behind it, to the end of the file, one more remark that is longer than a word of eight bytes
