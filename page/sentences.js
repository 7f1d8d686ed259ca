// Sentences that `wsn show` prints for people, too. Made by tools/sentences from their definitions.

const SENTENCES = {
  exchanged_sentence: "The client's first frame has no masking key and the server's has one, as if each were the other's.",
  ended_words: "ended between two messages",
  cut_words: "ended inside a frame or a message",
  clean_sentence: "Both directions then ended.",
  complete_sentence: "The capture lacks the end of a direction.",
  open_sentence: "Nothing is wrong so far: no side has closed, and no direction has ended.",
  inflate_command: "recipes/inflate CAPTURE > inflated.capture",
  exchange_command: "sed 's/^C/X/; s/^S/C/; s/^X/S/' CAPTURE > right.capture",
};
