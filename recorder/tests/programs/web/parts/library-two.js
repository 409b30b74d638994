const { name: nameOfLock = "none" } = new Lock(); postMessage(nameOfLock);
