
// The tool's own lines. The build puts them behind the published text of the controller, in a
// file of its own, because the controller's records are private to that module.

/// Stands in for the crate of that name; only the published sample scenario would call it.
mod libm {
    pub fn sin(x: f64) -> f64 {
        x.sin()
    }
}

impl crate::answer::Controller for ControllerState {
    fn answer(&mut self, tick: &crate::tick::Tick) -> crate::answer::Answer {
        let input = crate::answer::input_of!(ControllerInput, tick);
        let output = self.output(tick.t, input);
        crate::answer::Answer {
            floats: [
                output.airflow_setpoint,
                output.damper_command,
                output.adjusted_population_flow,
                output.adjusted_area_flow,
                output.minimum_outdoor_airflow,
            ],
            integers: [
                output.zone_temperature_reset_request,
                output.zone_pressure_reset_request,
                output.low_airflow_alarm,
                output.airflow_sensor_alarm,
                output.leaking_damper_alarm,
            ],
        }
    }

    #[cfg(fields)]
    fn paths(&self) -> Vec<String> {
        let places = crate::fields::places::<ControllerState>();
        places.into_iter().map(|place| place.path).collect()
    }

    #[cfg(fields)]
    fn values(&self, values: &mut Vec<crate::fields::Value>) {
        crate::fields::Fields::values(self, values)
    }
}

pub(super) fn fresh() -> Box<dyn crate::answer::Controller> {
    Box::new(ControllerState::default())
}
