onmessage = ({ data: words }) => {
  words[0] += 1;
  postMessage("done");
};
