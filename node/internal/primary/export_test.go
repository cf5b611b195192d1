package primary

import "ordup.dev/node/internal/engine"

// ScriptBy has a primary that does not run yet ask for the script by an engine of its own. Its lease stays with the other one.
func (p *Primary) ScriptBy(engine *engine.Engine) {
	p.config.Engine, p.follower.Engine = engine, engine
}
