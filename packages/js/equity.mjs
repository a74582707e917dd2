export * from "../../dist/equity.mjs";
