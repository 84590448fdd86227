//! Plans, extensions and openings of orders whose prefixes have many points.

use super::Trial;
use crate::inputs;
use trials::{dense_order, half_wide_order, packed, wide_critical_order, wide_order, Order, Random};

impl Trial {
    /// Plans two such orders, half of the time rivals, extends a start by each, and chooses between them.
    pub fn long_lists(&mut self) {
        let one = self.order_of_long_lists();
        let other = if self.random.once_in(2) {
            inputs::rival(&mut self.random, &one)
        } else {
            self.order_of_long_lists()
        };
        let (first, second) = (packed(&one), packed(&other));
        for (order, bytes) in [(&one, &first), (&other, &second)] {
            self.plan_bytes(bytes);
            self.extend_by(&[order.t0, 0], bytes);
        }
        self.weigh(&first, &second);
    }

    /// Half of the time one job of it is critical.
    fn order_of_long_lists(&mut self) -> Order {
        let draws: [fn(&mut Random) -> Order; 4] =
            [wide_order, dense_order, wide_critical_order, half_wide_order];
        let draw = self.random.one_of(&draws);
        let mut order = draw(&mut self.random);
        if self.random.once_in(2) {
            let job = self.random.below(order.jobs.len());
            order.jobs[job].critical = 1;
            order.jobs[job].weight = 0;
        }
        order
    }
}
