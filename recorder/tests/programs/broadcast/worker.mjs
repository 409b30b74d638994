// It says that it listens, and then what it has heard.
import { BroadcastChannel, parentPort } from "node:worker_threads";

const news = new BroadcastChannel("news");
news.onmessage = ({ data }) => {
  parentPort.postMessage(data);
  news.close();
};
parentPort.postMessage("listens");
