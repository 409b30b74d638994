export * from "./object.cjs";
