//! Colours, patterns and letters. Whatever a colour tells, a pattern, a height or
//! a letter tells too, so that a print in black and white says the same.

pub const HEAD: &str = r##"<style>
text { font-family: Arial, "Liberation Sans", "DejaVu Sans", sans-serif; font-size: 12px; fill: #000; }
.page { fill: #fff; }
.title { font-size: 17px; font-weight: bold; }
.subtitle { font-size: 14px; }
.name { font-size: 14px; font-weight: bold; }
.about { font-size: 11px; fill: #333; }
.number { font-size: 14px; font-weight: bold; text-anchor: middle; }
.level { text-anchor: middle; }
.bad { fill: #c00000; font-weight: bold; }
.guide { stroke: #999; stroke-width: 1; }
.step { fill: #000; stroke: #fff; stroke-width: 1.5; }
.instant { fill: #e9e9e9; }
.off { stroke: #777; stroke-width: 1.5; stroke-dasharray: 2 4; }
.rest { stroke: #000; stroke-width: 1.5; }
.waits { fill: url(#stripes); stroke: #000; stroke-width: 1; }
.runs { fill: #1f4e8c; stroke: #000; stroke-width: 1; }
.done { fill: url(#dots); stroke: #000; stroke-width: 1; }
.miss { fill: #d00000; stroke: #000; stroke-width: 2.5; }
.stop { fill: #fff; stroke: #000; stroke-width: 2.5; }
.holds { fill: #fff; stroke: #1f4e8c; stroke-width: 2; }
.in-waits, .in-done, .in-band, .in-runs, .in-miss, .in-stop, .in-holds { text-anchor: middle; }
.in-waits, .in-done, .in-band { stroke: #fff; stroke-width: 3px; paint-order: stroke; stroke-linejoin: round; }
.in-runs { fill: #fff; font-weight: bold; }
.in-miss { fill: #fff; font-weight: bold; }
.in-stop { font-weight: bold; }
.in-band { font-weight: bold; }
.steady { fill: #dfe7f3; stroke: #000; stroke-width: 1; }
.asked { fill: url(#falling); stroke: #000; stroke-width: 1; }
.changing { fill: url(#crossed); stroke: #000; stroke-width: 1; }
.mark { stroke: #000; stroke-width: 1.5; }
.tip { fill: #000; stroke: #000; stroke-width: 1; }
.open { fill: #fff; }
.carry { stroke: #00695c; stroke-width: 2; }
.late { stroke-dasharray: 5 3; }
.tail, .head { fill: #00695c; stroke: #00695c; stroke-width: 1; }
.value { fill: #00453c; font-weight: bold; stroke: #fff; stroke-width: 3px; paint-order: stroke; stroke-linejoin: round; }
.clock { font-size: 13px; text-anchor: middle; }
.bracket { fill: none; stroke: #000; stroke-width: 1.5; }
.flow { stroke: #000; stroke-width: 2.5; }
.tick { stroke: #000; stroke-width: 1; }
.tear { fill: #fff; stroke: #000; stroke-width: 1; }
.folded { text-anchor: middle; font-size: 13px; }
.refused { stroke: #c00000; stroke-width: 3; }
</style>
<defs>
<pattern id="stripes" width="6" height="6" patternUnits="userSpaceOnUse"><rect width="6" height="6" fill="#ffe3b0"/><path d="M-1 1l2 -2M0 6l6 -6M5 7l2 -2" stroke="#8a5a00" stroke-width="1"/></pattern>
<pattern id="dots" width="6" height="6" patternUnits="userSpaceOnUse"><rect width="6" height="6" fill="#d8efd8"/><circle cx="3" cy="3" r="1" fill="#2c5f2c"/></pattern>
<pattern id="falling" width="8" height="8" patternUnits="userSpaceOnUse"><rect width="8" height="8" fill="#efe3f7"/><path d="M-1 7l2 2M0 0l8 8M7 -1l2 2" stroke="#6a3d9a" stroke-width="1"/></pattern>
<pattern id="crossed" width="8" height="8" patternUnits="userSpaceOnUse"><rect width="8" height="8" fill="#e0c8f0"/><path d="M0 0l8 8M0 8l8 -8" stroke="#6a3d9a" stroke-width="1"/></pattern>
</defs>
"##;
