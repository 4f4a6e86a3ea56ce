// The network of the case that is live, with what can be changed there: choices at nodes, plans, crossings.
import { Network } from "./network.js";

const mapOf = told => new Map(Object.entries(told));

export class CaseNetwork extends Network {
  constructor(told) {
    super(told);
    this.isOrigin = new Set(told.origins);
    this.choices = mapOf(told.choices);
    this.plans = mapOf(told.plans);
    this.crossings = mapOf(told.crossings);
    this.crossingOf = new Map([...this.crossings].flatMap(([name, turns]) => turns.map(turn => [turn, name])));
  }
}
