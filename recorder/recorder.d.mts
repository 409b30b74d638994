export * from "./recorder.cjs";
